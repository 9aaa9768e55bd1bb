//! Lines of a script made from values: each command whose words a record, an
//! opening, a stamp or a file decides is written here alone.
//!
//! Written from the page on the driver's script alone.

use crate::model::row::{KIND, RESTORING, STAGED};
use crate::model::{Claim, File, Opening, Record, Tail, Task, Work};
use crate::place::Place;

/// Numbers parted by single spaces.
pub fn join(numbers: &[u64]) -> String {
    let texts: Vec<String> = numbers.iter().map(|number| number.to_string()).collect();
    texts.join(" ")
}

pub fn lend(place: Place, size: u64) -> String {
    format!("lend {} {}", place, size)
}

pub fn put(place: Place, index: u64, value: u64) -> String {
    format!("put {} {} {}", place, index, value)
}

/// The opening at a revision and a serial, of settings that were never
/// replaced.
pub fn open_at(revision: u64, serial: u64, payload: &str) -> String {
    open(Opening::at(revision, serial), payload)
}

pub fn open(opening: Opening, payload: &str) -> String {
    format!("open {} {}", join(&opening.words()), payload)
}

pub fn check(claim: Claim) -> String {
    format!("check {}", claimed(claim))
}

fn claimed(claim: Claim) -> String {
    format!("{} {}", claim.domain, join(&claim.stamp.words()))
}

/// The count of used tail records.
pub fn tails(count: u64) -> String {
    format!("tails {}", count)
}

/// A call on the tail table.
pub fn tail(tail: Tail) -> String {
    let call = format!("{} {}", tail.name().word(), join(&tail.file.words()));
    match tail.task {
        Task::Add { offset } => format!("{} {}", call, offset),
        Task::Remove => call,
        Task::Find { size: number, claim, .. } | Task::Move { offset: number, claim, .. } => {
            format!("{} {} {}", call, number, claimed(claim))
        }
    }
}

pub fn record(record: &Record) -> String {
    row(&record.row())
}

/// The record of a row of numbers, which may be none.
pub fn row(numbers: &[u64]) -> String {
    format!("record {}", join(numbers))
}

/// The record of an opening at 0, 0, 0 with one number of its row another.
pub fn row_with(at: usize, number: u64) -> String {
    let mut numbers = Record::default().row();
    numbers[at] = number;
    row(&numbers)
}

/// Rows that are no record's: a flag or a kind of ticket past its range.
pub fn bad_rows() -> Vec<String> {
    let kinds = Work::ALL.len() as u64;
    vec![row_with(STAGED, 2), row_with(RESTORING, 2), row_with(KIND, kinds + 1)]
}

/// Lines on the tail table that are no commands: with a word too few, with one
/// too many, and with a number past its range.
pub fn bad_tails() -> Vec<String> {
    let (offset, size) = (5, 6);
    let claim = Claim::of(&Record::default(), 3);
    let finds = [false, true].map(|structs| Task::Find { structs, size, claim });
    let moves = [false, true].map(|structs| Task::Move { structs, offset, claim });
    let tasks = [&[Task::Add { offset }, Task::Remove], &finds[..], &moves[..]].concat();
    let file = File { device: 1, inode: 2 };
    let mut lines = vec![tails(1)];
    lines.extend(tasks.into_iter().map(|task| tail(Tail { file, task })));
    let bad = |line: String| {
        let fewer = line.rsplit_once(' ').expect("a word and numbers").0;
        [fewer.to_string(), format!("{} 1", line), format!("{} 18446744073709551616", fewer)]
    };
    lines.into_iter().flat_map(bad).collect()
}

/// Lends what is lent at the start, a line each.
pub fn lend_as_at_start() -> Vec<String> {
    Place::ALL.into_iter().map(|place| lend(place, place.lent_at_start())).collect()
}
