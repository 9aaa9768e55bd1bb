//! Request 4, sentence by sentence: the input log, and replaying it in portions.
//! Its events have a file of their own.
//!
//! Written from documents 01 and 02 alone.

use super::replayed;
use crate::answer::Refusal;
use crate::input::{self, Event};
use crate::model::{Name, Outcome, Record, CALLS};
use crate::program::words_of;
use crate::recording::{bad, event, full, log_of, sound};
use crate::replay::{replay, Ended};
use crate::sizes::{ROOM_MOST, TOP};

/// The kinds of events are those of the table of calls.
#[test]
fn the_kinds_are_those_of_the_log() {
    for kind in 0..=Name::RECORDED.len() as u64 + 2 {
        let about = CALLS.iter().find(|about| about.kind == Some(kind));
        assert_eq!(Name::of_kind(kind), about.map(|about| about.name));
    }
    assert_eq!(Name::of_kind(TOP), None);
}

/// "12 to 8,196 words, 4 over a multiple of 8"
#[test]
fn sizes_of_an_input_log() {
    for size in [0, 1, 4, 8, 11, 13, 16, 19, 21, 8195, 8197, 8204] {
        assert_eq!(input::check(&vec![0; size]), Err(Refusal::BadArea), "{} words", size);
    }
    for room in [1, 2, 3, 1023, 1024] {
        assert_eq!(input::check(&log_of(room, room, &[])), Ok(()), "room {}", room);
        assert_eq!(input::check(&log_of(0, room, &[])), Ok(()), "room {}", room);
    }
    assert_eq!((full(&[]).len(), log_of(0, ROOM_MOST, &[]).len()), (12, 8196));
}

/// "with the log's head, its 6 and 7"
#[test]
fn heads_of_an_input_log() {
    let heads =
        [[3, 4, 2, 0], [TOP, 4, 2, 0], [0, 3, 2, 0], [0, 4, 1, 0], [0, 4, 3, 0], [0, 4, 2, 1]];
    for head in heads {
        let mut words = log_of(0, 2, &[]);
        words[..4].copy_from_slice(&head);
        assert_eq!(input::check(&words), Err(Refusal::Damaged), "{:?}", head);
    }
}

/// "in a lent slice of at least the room's words (else 6)", all 6s before all 7s.
#[test]
fn the_slice_for_the_answers() {
    let mut record = Record::default();
    let mut sound = log_of(1, 3, &[event(Name::AskUpdate, &[])]);
    let refused = Ended::Refused(Refusal::BadArea);
    assert_eq!(replay(&sound, 0, &mut record, &mut [0; 2], 1), refused);
    assert_eq!(replay(&sound, 0, &mut record, &mut [0; 3], 1), Ended::Ran(1));
    assert_eq!(replay(&sound, 0, &mut record, &mut [0; 4], 1), Ended::Ran(1));
    sound[3] = 1;
    assert_eq!(replay(&sound, 0, &mut record, &mut [0; 2], 1), refused);
    let damaged = Ended::Refused(Refusal::Damaged);
    assert_eq!(replay(&sound, 0, &mut record, &mut [0; 3], 1), damaged);
}

/// "It runs at most the number of events it is given and reports how many it ran;
/// two portions equal one."
#[test]
fn portions_equal_one() {
    for seed in 0..20 {
        let recording = sound(seed, 300);
        let words = words_of(&recording.bytes).expect("whole words");
        let opened = Record::opened(recording.opening, recording.length);
        let (mut whole, mut all) = (opened.clone(), [0; 300]);
        assert_eq!(replay(&words, 0, &mut whole, &mut all, TOP), Ended::Ran(300));
        for first in [0, 1, 2, 7, 150, 299, 300] {
            let (mut record, mut parts) = (opened.clone(), [0; 300]);
            assert_eq!(replay(&words, 0, &mut record, &mut parts, first), Ended::Ran(first));
            let rest = replay(&words, first, &mut record, &mut parts, TOP);
            assert_eq!(rest, Ended::Ran(300 - first));
            assert_eq!((&record, parts), (&whole, all));
        }
    }
}

/// "The first bad one is named by its number, with answer 17, and replay stops at
/// the record before it": those before it run, and words past the count are not
/// read.
#[test]
fn a_bad_event_is_found_when_it_is_reached() {
    let good = sound(7, 5);
    let words = words_of(&good.bytes).expect("whole words");
    let events: Vec<Event> = (0..5).map(|number| input::event(&words, number)).collect();
    for at in 0..5 {
        let mut spoilt = events.clone();
        spoilt[at] = Event::default();
        let (record, _, ended) = replayed(&spoilt, good.opening);
        assert_eq!(ended, Ended::Bad(at as u64));
        assert_eq!(record, replayed(&events[..at], good.opening).0);
        let past = log_of(at as u64, 5, &spoilt);
        let mut record = Record::default();
        assert_eq!(replay(&past, 0, &mut record, &mut [0; 5], TOP), Ended::Ran(at as u64));
    }
}

/// A record that is not whole answers each event 7.
#[test]
fn a_record_that_is_not_whole() {
    let broken = Record { phase: 1, ..Record::default() };
    let mut record = broken.clone();
    let events = Name::RECORDED.map(|name| bad::filled(name, Outcome::WAITING));
    let events: Vec<Event> = events.into_iter().collect();
    let mut answers = [0; 12];
    assert_eq!(replay(&full(&events), 0, &mut record, &mut answers, TOP), Ended::Ran(12));
    assert_eq!((record, answers), (broken, [7; 12]));
}
