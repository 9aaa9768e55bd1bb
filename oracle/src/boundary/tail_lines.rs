//! The lines that the boundary pairs of the tail table are made of.
//!
//! Written from documents 01 and 02 and the page on the driver's script alone.

use super::records::idle_record;
use super::Out;
use crate::line;
use crate::model::{Claim, File, Tail, Task};
use crate::place::Place;
use crate::sizes::TAIL;
use crate::tails::Saved;
use std::io;

/// A stamp that passes with the idle record.
pub(super) fn passing() -> Claim {
    Claim::of(&idle_record(), 3)
}

pub(super) fn file(device: u64, inode: u64) -> File {
    File { device, inode }
}

pub(super) fn saved(device: u64, inode: u64, offset: u64) -> Saved {
    Saved { file: file(device, inode), offset }
}

pub(super) fn call(out: Out, file: File, task: Task) -> io::Result<()> {
    writeln!(out, "{}", line::tail(Tail { file, task }))
}

pub(super) fn add(out: Out, file: File, offset: u64) -> io::Result<()> {
    call(out, file, Task::Add { offset })
}

pub(super) fn remove(out: Out, file: File) -> io::Result<()> {
    call(out, file, Task::Remove)
}

/// Finding, in words and in structs.
pub(super) fn find(out: Out, file: File, size: u64, claim: Claim) -> io::Result<()> {
    call(out, file, Task::Find { structs: false, size, claim })?;
    call(out, file, Task::Find { structs: true, size, claim })
}

/// Moving, in words and in structs.
pub(super) fn advance(out: Out, file: File, offset: u64, claim: Claim) -> io::Result<()> {
    call(out, file, Task::Move { structs: false, offset, claim })?;
    call(out, file, Task::Move { structs: true, offset, claim })
}

/// Puts records in the table from one of its records on.
pub(super) fn put(out: Out, first: u64, records: &[Saved]) -> io::Result<()> {
    let values = records.iter().flat_map(|record| record.words());
    for (word, value) in (first * TAIL..).zip(values) {
        writeln!(out, "{}", line::put(Place::Tails, word, value))?;
    }
    Ok(())
}

/// Lends so many words with records at their front, all of them used.
pub(super) fn table(out: Out, words: u64, records: &[Saved]) -> io::Result<()> {
    writeln!(out, "{}", line::lend(Place::Tails, words))?;
    put(out, 0, records)?;
    writeln!(out, "{}", line::tails(records.len() as u64))
}
