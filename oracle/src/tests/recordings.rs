//! What the fixed recordings and those of some seeds reach, and how a difference
//! is made small.
//!
//! Written from documents 01 and 02 alone.

use crate::compare::logs::shrink::smallest;
use crate::compare::logs::{Case, Subject};
use crate::compare::replays::faults::{sort, sorts, Sort};
use crate::compare::replays::Totals;
use crate::input::{self, Event};
use crate::log;
use crate::model::Name;
use crate::program::{words_of, Program, Why};
use crate::recording::{bytes, event, fixed, full, log_of, seeded, sound};
use crate::replay::program::play;
use crate::sizes::INPUT_EVENT;
use std::collections::BTreeSet;

/// So many seeds reach every answer.
const SEEDS: u64 = 60;

/// Every call with every answer that it can have in a replay.
#[test]
fn the_seeds_reach_every_answer() {
    let mut totals = Totals::default();
    for recording in (1..=SEEDS).map(seeded) {
        totals.add(&recording);
    }
    assert_eq!(totals.answers.faults(), (vec![], vec![]));
}

/// Every answer too, and every sort of bad event at the first, a middle and the
/// last place.
#[test]
fn the_fixed_ones_reach_every_answer_and_bad_event() {
    let mut totals = Totals::default();
    for (_, recording) in fixed::all() {
        totals.add(&recording);
    }
    assert_eq!(totals.answers.faults(), (vec![], vec![]));
    let reached: BTreeSet<(Sort, usize)> = totals.sorts.keys().copied().collect();
    let all = sorts().into_iter().flat_map(|sort| (0..3).map(move |place| (sort, place)));
    assert_eq!(reached, all.collect());
}

/// Three kinds that are none, two outcomes that are none of each report, and the
/// words that the kinds do not use.
#[test]
fn the_sorts_of_bad_events() {
    let asks_and_ends = 5 * 7;
    let (begins, snapshots) = (2 * 4, 2 * 6);
    let (structure, others) = (3 + 2 + 3, 2 * (5 + 4 + 5));
    let wanted = 3 + 3 * 2 + asks_and_ends + begins + snapshots + structure + others;
    assert_eq!(sorts().len(), wanted);
    assert_eq!(sort(&event(Name::Commit, &[])), None);
}

/// Words that a replay does not read stand past the count.
#[test]
fn some_fixed_ones_have_bad_events_past_the_count() {
    let past = |bytes: &[u8]| {
        let words = words_of(bytes).filter(|words| input::check(words).is_ok());
        words.map_or(false, |words| {
            let room = log::room(words.len() as u64, INPUT_EVENT);
            (words[log::COUNT]..room).any(|number| sort(&input::event(&words, number)).is_some())
        })
    };
    let found = fixed::all().iter().filter(|(_, recording)| past(&recording.bytes)).count();
    assert!(found > 50, "{} of them", found);
}

/// A recording of a number of events has no fault, and always the same bytes.
#[test]
fn recordings_without_a_fault() {
    for events in [0, 1, 2, 500, 1024] {
        let recording = sound(3, events);
        assert_eq!(recording, sound(3, events));
        let played = play(&recording.bytes, &recording.told());
        assert_eq!((played.why, played.ran.len() as u64), (Why::AllRan, events));
    }
    assert_eq!(seeded(5), seeded(5));
}

/// A stand-in for two sides: they differ where an update is asked for after a
/// commit.
fn differs(case: &Case) -> bool {
    let words = words_of(&case.bytes).expect("whole words");
    let kinds = (0..words[log::COUNT]).map(|number| input::event(&words, number)[input::KIND]);
    let kinds: Vec<u64> = kinds.collect();
    let commit = kinds.iter().position(|kind| *kind == 9);
    commit.map_or(false, |at| kinds[at..].contains(&5))
}

#[test]
fn events_go_and_numbers_fall() {
    let events: Vec<Event> = words_of(&sound(1, 400).bytes)
        .map(|words| (0..400).map(|number| input::event(&words, number)).collect())
        .expect("whole words");
    let words = vec!["1000".to_string(), "7".to_string()];
    let case = Case { program: Program::Replay, bytes: bytes(&log_of(400, 500, &events)), words };
    let (small, _) = smallest(case, &mut |case| Ok(differs(case))).expect("no program is started");
    let wanted = full(&[event(Name::Commit, &[]), event(Name::AskUpdate, &[])]);
    assert_eq!(words_of(&small.bytes), Some(wanted));
    assert_eq!(small.words, ["0", "0"]);
}
