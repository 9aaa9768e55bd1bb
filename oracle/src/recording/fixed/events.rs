//! The fixed recordings on events: large numbers, and bad ones.
//!
//! Written from documents 01 and 02 alone.

use super::{named, some_events, Named, LENGTH, OPENING};
use crate::input::{self, used, Event, ACTIONS, OUTCOME, TICKET};
use crate::model::{Name, Record};
use crate::recording::bad::{self, outcomes_of};
use crate::recording::{self, full, log_of};
use crate::replay::run;
use crate::sizes::{AREA, MAX_ACTIONS, TOP};

/// How many events stand before and after a bad one.
const AROUND: usize = 4;

/// Numbers at and about the limits, the largest first: a begin that is not
/// refused ends the others.
const LIMITS: [u64; 9] =
    [TOP, TOP - 1, 1 << 32, AREA + 1, AREA, MAX_ACTIONS + 1, MAX_ACTIONS, 1, 0];

/// What stands before the events: a begin with so many actions, if any.
const BEGUN: [Option<(Name, u64)>; 4] =
    [None, Some((Name::Begin, 0)), Some((Name::Begin, 1)), Some((Name::BeginStructural, 1))];

/// Every event with each number it uses at a limit, after a begin or none, and
/// with an ask before each.
pub(super) fn large_numbers() -> Vec<Named> {
    let asks = [Name::AskStructure, Name::AskUpdate, Name::AskRollback];
    let mut all = Vec::new();
    for name in Name::RECORDED {
        for outcome in outcomes_of(name) {
            for at in used(name, outcome).iter().filter(|at| **at != OUTCOME) {
                for (begun, ask) in BEGUN.into_iter().flat_map(|begun| asks.map(|ask| (begun, ask)))
                {
                    let words = full(&limited(bad::filled(name, outcome), *at, begun, ask));
                    all.push(named(format!("{} with word {} large", name.word(), at), &words));
                }
            }
        }
    }
    all
}

/// An event with one of its words at each limit, the ticket being the last one
/// given where it is not that word.
fn limited(event: Event, at: usize, begun: Option<(Name, u64)>, ask: Name) -> Vec<Event> {
    let mut told = Telling { record: Record::opened(OPENING, LENGTH), events: vec![] };
    if let Some((name, actions)) = begun {
        told.tell(recording::event(name, &[(ACTIONS, actions)]));
    }
    for limit in LIMITS {
        told.tell(recording::event(ask, &[]));
        let mut event = event;
        if event[TICKET] != 0 {
            event[TICKET] = told.record.serial;
        }
        event[at] = limit;
        told.tell(event);
    }
    told.events
}

/// Events that are run as they are told.
struct Telling {
    record: Record,
    events: Vec<Event>,
}

impl Telling {
    fn tell(&mut self, event: Event) {
        let call = input::read(&event).expect("an event that is not bad");
        run(&mut self.record, &call);
        self.events.push(event);
    }
}

/// Each bad event among others: the first, in the middle and the last in turn, in
/// a full log and in one with more of them past the count.
pub(super) fn bad_ones() -> Vec<Named> {
    let around = some_events(AROUND as u64);
    let mut all = Vec::new();
    for (number, bad) in bad::all().into_iter().enumerate() {
        let mut events = around.clone();
        let at = number % 3 * AROUND / 2;
        events.insert(at, bad);
        let count = events.len() as u64;
        let room = if number % 2 == 0 { count } else { count + 1 };
        events.push(bad);
        let words = log_of(count, room, &events[..room as usize]);
        all.push(named(format!("bad event {} at {}", number, at), &words));
    }
    all
}
