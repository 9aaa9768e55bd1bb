//! The tables of answers, calls, sizes and a record's numbers, held to the
//! numbers of documents 01 and 02 and of the page on the driver's script.
//!
//! Written from those three alone.

use crate::answer::{Answer, Refusal};
use crate::model::{phase, Record, Ticket, Work, CALLS};
use crate::sizes::{AREA, IDS_MOST, LOG_LEAST, LOG_MOST, MAX_ACTIONS, TABLE, TAIL, TAILS_MOST};
use std::collections::BTreeSet;

#[test]
fn the_sizes_of_documents_01_and_02() {
    assert_eq!((AREA, MAX_ACTIONS, TABLE, IDS_MOST), (4096, 64, 128, 256));
    assert_eq!((LOG_LEAST, LOG_MOST), (8, 4100));
    assert_eq!((TAIL, TAILS_MOST), (3, 768));
}

#[test]
fn every_answer_has_a_number() {
    let numbers: BTreeSet<u64> =
        CALLS.iter().flat_map(|about| about.answers()).map(Answer::number).collect();
    let wanted: Vec<u64> = (0..=7).chain(9..=16).chain(20..=24).chain(31..=35).collect();
    assert_eq!(numbers.into_iter().collect::<Vec<u64>>(), wanted);
}

#[test]
fn the_calls_stand_in_their_order() {
    for (at, about) in CALLS.iter().enumerate() {
        assert_eq!(about.name as usize, at, "{}", about.word);
    }
    let kinds: Vec<u64> = CALLS.iter().filter_map(|about| about.kind).collect();
    assert_eq!(kinds, (1..=12).collect::<Vec<u64>>());
}

#[test]
fn the_answers_that_are_written() {
    for about in CALLS.iter().filter(|about| about.kind.is_some()) {
        let wanted: &[u64] = if about.is_step() { &[4, 5, 20, 21, 22, 23, 24] } else { &[0] };
        for answer in about.answers() {
            let written = answer.written(about.is_step());
            assert_eq!(written, wanted.contains(&answer.number()), "{} {:?}", about.word, answer);
        }
    }
    assert!(!Answer::Refused(Refusal::NotReady).written(false));
}

#[test]
fn a_record_is_its_row() {
    let row = [9, 8, 7, 6, 5, 1, 12, 4, 3, 2, 1, 0, 1, 3, 11, 10];
    let record = Record {
        revision: 9,
        serial: 8,
        accepted: 7,
        candidate: 6,
        recovery: 5,
        staged: true,
        phase: phase::RECOVER_SETTLE_MOUNTED,
        forward: 4,
        back: 3,
        entries: 2,
        applied: 1,
        attempted: 0,
        restoring: true,
        live: Some(Ticket { work: Work::Rollback, number: 11 }),
        replacements: 10,
    };
    assert_eq!(Record::of_row(row), Some(record.clone()));
    assert_eq!(record.row(), row);
}
