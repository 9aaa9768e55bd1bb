//! Every sort of bad event.
//!
//! Written from documents 01 and 02 alone.

use super::event;
use super::maker::WIDE;
use crate::input::{used, Event, CODE, KIND, OUTCOME, TICKET, ZERO};
use crate::model::{Name, Outcome};
use crate::sizes::TOP;

/// Words that are not zero, the last ones in their upper bits alone.
const NOT_ZERO: [u64; 4] = [1, TOP, WIDE, 1 << 63];

/// All of them, each sort at least three times in a row: of kinds that there are
/// none of, with outcomes that there are none of, and with each word that is not
/// used not zero.
pub fn all() -> Vec<Event> {
    let mut events = kinds();
    events.extend(outcomes());
    for name in Name::RECORDED {
        for outcome in outcomes_of(name) {
            events.extend(unused(name, outcome));
        }
    }
    events
}

/// An event that is not bad, with each word that it uses not zero.
pub fn filled(name: Name, outcome: u64) -> Event {
    let words = used(name, outcome).iter().map(|at| (*at, 1)).collect::<Vec<_>>();
    let mut event = event(name, &words);
    event[OUTCOME] = outcome;
    event
}

/// Whether a call is a report.
pub fn reports(name: Name) -> bool {
    used(name, Outcome::DONE).contains(&OUTCOME)
}

/// The outcomes that an event of a call can have; zero where it has none.
pub fn outcomes_of(name: Name) -> Vec<u64> {
    if reports(name) {
        vec![Outcome::WAITING, Outcome::FAILED, Outcome::DONE]
    } else {
        vec![0]
    }
}

fn kinds() -> Vec<Event> {
    let past = Name::RECORDED.len() as u64 + 1;
    let kinds = [0, past, past + 1, 256, 257, WIDE, WIDE + 1, 1 << 63, TOP];
    let mut events = Vec::new();
    for kind in kinds {
        let mut event = Event::default();
        event[KIND] = kind;
        events.push(event);
        for at in [TICKET, ZERO] {
            event[at] = 1;
            events.push(event);
        }
    }
    events
}

fn outcomes() -> Vec<Event> {
    let past = Outcome::MOST + 1;
    let mut events = Vec::new();
    for name in Name::RECORDED.into_iter().filter(|name| reports(*name)) {
        for outcome in [past, 256, 257, WIDE, WIDE + 1, WIDE + Outcome::DONE, 1 << 63, TOP] {
            for others in [&[][..], &[(TICKET, 1)], &[(TICKET, 1), (CODE, 1)]] {
                events.push(event(name, &[&[(OUTCOME, outcome)], others].concat()));
            }
        }
    }
    events
}

/// The events of a call and an outcome with one word that is not used not zero.
fn unused(name: Name, outcome: u64) -> Vec<Event> {
    let used = used(name, outcome);
    let mut events = Vec::new();
    for at in (TICKET..=ZERO).filter(|at| !used.contains(at)) {
        for word in NOT_ZERO {
            let mut event = filled(name, outcome);
            event[at] = word;
            events.push(event);
        }
    }
    events
}
