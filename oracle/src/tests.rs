//! Tests: helpers that play lines and compare what is answered.

mod answers;
mod audited;
mod audits;
mod cases;
mod events;
mod programs;
mod reaching;
mod recordings;
mod replays;
mod requests;
mod scripted;
mod scripts;
mod shrinking;
mod tails;

use crate::input::{Event, ACTIONS, CANDIDATE, OUTCOME, RECOVERY, TICKET};
use crate::model::{Claim, Name, Opening, Record, Stamp};
use crate::recording::{event, full};
use crate::replay::{replay, Ended};
use crate::sizes::ROOM_MOST;
use crate::{line, script};
use std::borrow::Borrow;

fn play_bytes(text: &[u8]) -> Vec<String> {
    let mut output = Vec::new();
    script::play(&mut &text[..], &mut output).expect("playing into memory");
    let text = String::from_utf8(output).expect("answers are ASCII");
    text.lines().map(|line| line.to_string()).collect()
}

fn play<Line: Borrow<str>>(lines: &[Line]) -> Vec<String> {
    play_bytes(lines.join("\n").as_bytes())
}

/// Pairs of a line and its answer, an empty answer for none.
fn holds(pairs: &[(&str, &str)]) {
    let lines: Vec<&str> = pairs.iter().map(|pair| pair.0).collect();
    let wanted: Vec<&str> = pairs.iter().map(|pair| pair.1).filter(|a| !a.is_empty()).collect();
    assert_eq!(play(&lines), wanted);
}

/// The record after some lines.
fn record_after<Line: Borrow<str>>(lines: &[Line]) -> Record {
    let mut player = script::Player::new();
    for line in lines {
        player.hear(line.borrow().as_bytes());
    }
    player.driver.record
}

/// The opening at a revision and a serial, of settings that were never
/// replaced.
fn open(revision: u64, serial: u64, payload: &str) -> String {
    line::open(Opening::at(revision, serial), payload)
}

/// A stamp of domain 3 at a revision and a count of replacements.
fn stamped(revision: u64, replacements: u64) -> Claim {
    Claim { domain: 3, stamp: Stamp { domain: 3, revision, replacements } }
}

/// The record of an opening at 0, 0, 0, but staged.
fn staged() -> Record {
    Record { staged: true, ..Record::default() }
}

/// The record and the answers after the events, and how the replay ended.
fn replayed(events: &[Event], opening: Opening) -> (Record, Vec<u64>, Ended) {
    let mut record = Record::opened(opening, 0);
    let mut answers = vec![0; events.len().max(1)];
    let ended = replay(&full(events), 0, &mut record, &mut answers, ROOM_MOST);
    (record, answers, ended)
}

/// The event of a begin.
fn begin(name: Name, actions: u64, candidate: u64, recovery: u64) -> Event {
    event(name, &[(ACTIONS, actions), (CANDIDATE, candidate), (RECOVERY, recovery)])
}

/// The event of a report that is not Failed.
fn report(name: Name, ticket: u64, outcome: u64) -> Event {
    event(name, &[(TICKET, ticket), (OUTCOME, outcome)])
}
