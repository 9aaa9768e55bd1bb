//! Request 6: events that are refused, bad events, logs and openings that are
//! refused, the words that an audit takes, and what the recordings reach.
//!
//! Written from documents 01 and 02 and the page on the driver's script alone.

use super::begin;
use crate::audit;
use crate::compare::audits::Totals;
use crate::compare::logs::Subject;
use crate::input::{Event, SNAPSHOT, TICKET};
use crate::model::Name::*;
use crate::program::{Program, Told, Why};
use crate::recording::{bytes, event, fixed, full, log_of, seeded, tour, Recording};
use crate::replay::program;
use crate::sizes::{AREA, FILE_MOST};
use std::collections::BTreeSet;

/// What is written of a file's bytes with these words after its name.
fn written(bytes: &[u8], words: &[&str]) -> String {
    Program::Audit.text(bytes, &Program::Audit.told(words).expect("numbers"))
}

/// Begins, a refresh, a report and asks that are refused while an update is left.
#[test]
fn refused_events_leave_the_line_equal() {
    let refused: [Event; 8] = [
        begin(Begin, 0, 0, 0),
        begin(BeginStructural, 0, 0, 0),
        event(Refresh, &[(SNAPSHOT, 0)]),
        event(ReportUpdate, &[(TICKET, 1)]),
        event(AskStructure, &[]),
        event(Commit, &[]),
        event(Recover, &[(SNAPSHOT, 0)]),
        event(RecoverRetained, &[]),
    ];
    let events = [&[begin(Begin, 1, 0, 0)], &refused[..]].concat();
    let lines: Vec<String> = (1..=9).map(|number| format!("{} 0 0 0 2 5\n", number)).collect();
    let wanted = format!("0 0 0 0 0 5\n{}ended 0 9\n", lines.concat());
    assert_eq!(written(&bytes(&full(&events)), &["5"]), wanted);
}

/// The same on random logs: "refused events included".
#[test]
fn refused_events_of_the_seeds() {
    let mut refused = 0;
    for recording in (1..=30).map(seeded) {
        let played = program::play(&recording.bytes, &recording.told());
        let audited = audit::play(&recording.bytes, &recording.told());
        assert_eq!(audited.why, played.why);
        for (number, (_, answer)) in played.ran.iter().enumerate() {
            if (1..20).contains(answer) {
                assert_eq!(audited.answers[number], audited.answers[number + 1]);
                refused += 1;
            }
        }
    }
    assert!(refused > 3000, "{} of them", refused);
}

/// "Where event N is bad, the last line is that of the N events before it"
#[test]
fn a_bad_event_ends_the_lines() {
    let begun = begin(Begin, 0, 0, 0);
    let (bad, commit) = (Event::default(), event(Commit, &[]));
    let text = written(&bytes(&full(&[begun, bad, commit])), &["7"]);
    assert_eq!(text, "0 0 0 0 0 7\n1 0 1 1 0 7\nended 17 1\n");
    let text = written(&bytes(&full(&[bad, begun])), &["7"]);
    assert_eq!(text, "0 0 0 0 0 7\nended 17 0\n");
    let past_the_count = log_of(1, 2, &[begun, bad]);
    let text = written(&bytes(&past_the_count), &["7"]);
    assert_eq!(text, "0 0 0 0 0 7\n1 0 1 1 0 7\nended 0 1\n");
}

/// "where the log or the opening is refused there is none", and the opening is
/// looked at first.
#[test]
fn a_refusal_has_no_line() {
    let sound = bytes(&full(&[]));
    let (unsound, cut) = (bytes(&log_of(2, 1, &[])), &sound[..sound.len() - 8]);
    assert_eq!(written(&sound, &["7"]), "0 0 0 0 0 7\nended 0 0\n");
    assert_eq!(written(&unsound, &["7"]), "ended 7\n");
    for file in [cut, &sound[1..], &[], &vec![0; FILE_MOST as usize + 8]] {
        assert_eq!(written(file, &["7"]), "ended 6\n");
    }
    let long = (AREA + 1).to_string();
    for file in [&sound, &unsound, cut] {
        assert_eq!(written(file, &["7", "40", "2", &long]), "ended 16\n");
    }
    let longest = AREA.to_string();
    assert_eq!(written(&sound, &["7", "40", "2", &longest]), "0 0 0 0 0 7\nended 0 0\n");
}

/// "missing numbers are 0; bad words as in replay": there is no portion.
#[test]
fn the_words_of_an_audit() {
    let audit = Program::Audit;
    let words = ["7", "40", "2", "300"];
    for count in 0..=words.len() {
        let mut wanted = [0, 0, 0, 0, 1024];
        for (number, word) in wanted.iter_mut().zip(&words[..count]) {
            *number = word.parse().expect("a number");
        }
        assert_eq!(audit.told(&words[..count]), Ok(Told::of_numbers(wanted)));
    }
    assert!(audit.told(&["7", "40", "2", "300", "1"]).is_err());
    assert!(audit.told(&["7", "x"]).is_err());
    assert!(audit.run(&[]).is_err());
    assert!(audit.run(&["/no/such/file".to_string()]).is_err());
}

fn totals(recordings: impl Iterator<Item = Recording>) -> Totals {
    let mut totals = Totals::default();
    for recording in recordings {
        totals.text(&recording.bytes, &recording.told());
    }
    totals
}

/// Every phase with every answer that it can have, and every ending.
#[test]
fn the_recordings_reach_every_answer() {
    for totals in
        [totals(fixed::all().into_iter().map(|(_, one)| one)), totals((1..200).map(seeded))]
    {
        assert_eq!(totals.phases.faults(), (vec![], vec![]));
        assert_eq!(totals.ends.faults(), (vec![], vec![]));
    }
}

/// Every answer too, with the refusals that a tour is to meet, and a bad event.
#[test]
fn the_tour_reaches_every_answer() {
    let totals = totals([tour()].into_iter());
    assert_eq!(totals.phases.faults(), (vec![], vec![]));
    let played = program::play(&tour().bytes, &tour().told());
    assert_eq!(played.why, Why::Bad);
    let met: BTreeSet<u64> = played.ran.iter().map(|(_, answer)| *answer).collect();
    let wanted = [0, 1, 2, 4, 5, 9, 10, 11, 14, 15, 16, 20, 21, 22, 23, 24];
    assert_eq!(met, BTreeSet::from(wanted));
    assert!(played.ran.contains(&(AskRollback, 11)));
}
