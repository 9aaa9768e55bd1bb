//! Request 4's events: which are bad, and what their words say.
//!
//! Written from documents 01 and 02 alone.

use super::{begin, replayed, report};
use crate::input::{self, Event, Fault};
use crate::input::{CANDIDATE, CODE, OUTCOME, SNAPSHOT, ZERO};
use crate::model::{Name, Opening, Outcome, Record};
use crate::recording::{bad, event};
use crate::replay::Ended;
use crate::sizes::{AREA, MAX_ACTIONS, TOP};

fn answers(events: &[Event]) -> Vec<u64> {
    let (_, answers, ended) = replayed(events, Opening::default());
    assert_eq!(ended, Ended::Ran(events.len() as u64));
    answers
}

/// "An event is bad if its kind is not 1 to 12, its outcome is over 2, or an
/// unused word is not zero."
#[test]
fn bad_events_are_bad_and_the_others_not() {
    for event in bad::all() {
        assert!(input::read(&event).is_err(), "{:?}", event);
    }
    for name in Name::RECORDED {
        for outcome in bad::outcomes_of(name) {
            let call = input::read(&bad::filled(name, outcome)).expect("not bad");
            assert_eq!(call.name(), name);
        }
    }
}

/// "reports the ticket, the outcome and, if Failed, the code": which may be zero.
#[test]
fn a_code_is_used_if_failed() {
    for name in [Name::ReportStructure, Name::ReportUpdate, Name::ReportRollback] {
        for (outcome, code, good) in [
            (Outcome::WAITING, 0, true),
            (Outcome::WAITING, 1, false),
            (Outcome::FAILED, 0, true),
            (Outcome::FAILED, TOP, true),
            (Outcome::DONE, 0, true),
            (Outcome::DONE, 1, false),
        ] {
            let read = input::read(&event(name, &[(OUTCOME, outcome), (CODE, code)]));
            let wanted = if good { None } else { Some(Fault::Unused(CODE)) };
            assert_eq!(read.err(), wanted);
        }
    }
}

/// Lengths, counts and tickets that are too large are not bad: they are refused.
#[test]
fn large_numbers_are_refused() {
    let (long, many) = (AREA + 1, MAX_ACTIONS + 1);
    let begins = [(TOP, TOP, TOP, 14), (0, long, 0, 14), (0, 0, TOP, 15), (many, 0, 0, 9)];
    for name in [Name::Begin, Name::BeginStructural] {
        for (actions, candidate, recovery, answer) in begins {
            assert_eq!(answers(&[begin(name, actions, candidate, recovery)]), [answer]);
        }
        assert_eq!(
            answers(&[begin(name, TOP, 0, 0), begin(name, MAX_ACTIONS, AREA, AREA)]),
            [9, 0]
        );
    }
    let snapshot = |name, length| event(name, &[(SNAPSHOT, length)]);
    let refreshes = [long, TOP, AREA].map(|length| snapshot(Name::Refresh, length));
    assert_eq!(answers(&refreshes), [16, 16, 0]);
    assert_eq!(answers(&[report(Name::ReportUpdate, TOP, Outcome::DONE)]), [10]);
}

/// "10 and 12 the snapshot length": it stands in the seventh word, and moves with
/// its payload.
#[test]
fn a_snapshot_stands_in_the_seventh_word() {
    let refresh = [12, 0, 0, 0, 0, 0, 9, 0];
    let recover = [10, 0, 0, 0, 0, 0, 8, 0];
    let begun = begin(Name::Begin, 0, 3, 4);
    let (record, answers, _) = replayed(&[refresh, begun, recover], Opening::at(7, 40));
    assert_eq!(answers, [0, 0, 0]);
    let opening = Opening { replacements: 2, ..Opening::at(7, 40) };
    assert_eq!(record, Record::opened(opening, 8));
    for kind in [10, 12] {
        let candidate = input::read(&[kind, 0, 0, 0, 0, 9, 0, 0]);
        assert_eq!(candidate, Err(Fault::Unused(CANDIDATE)));
        let last = input::read(&[kind, 0, 0, 0, 0, 0, 0, 9]);
        assert_eq!(last, Err(Fault::Unused(ZERO)));
    }
}

/// "Begins use the count and both lengths; reports the ticket, the outcome and, if
/// Failed, the code; structure reports also both lengths": word for word.
#[test]
fn each_word_stands_in_its_place() {
    let events = [
        [2, 0, 0, 0, 3, 11, 12, 0],
        [3, 0, 0, 0, 0, 0, 0, 0],
        [4, 41, 1, 99, 0, 13, 14, 0],
        [3, 0, 0, 0, 0, 0, 0, 0],
        [4, 42, 2, 0, 0, 15, 16, 0],
    ];
    let lengths = [(11, 12), (11, 12), (13, 14), (13, 14), (15, 16)];
    for (last, (candidate, recovery)) in lengths.into_iter().enumerate() {
        let (record, answers, _) = replayed(&events[..=last], Opening::at(7, 40));
        assert_eq!(answers, [0, 20, 22, 20, 23][..=last]);
        assert_eq!((record.candidate, record.recovery, record.entries), (candidate, recovery, 3));
    }
}
