//! The boundary pairs of finding and moving: sizes and offsets, stamps and
//! records; and each refusal of the tail table behind those before it.
//!
//! Written from documents 01 and 02 and the page on the driver's script alone.

use super::records::{idle_record, some_records};
use super::tail_lines::{add, advance, call, file, find, passing, remove, saved, table};
use super::transaction::PAST_32_BITS;
use super::Out;
use crate::line;
use crate::model::{phase, Claim, Record, Stamp, Task};
use crate::place::Place;
use crate::sizes::{AREA, LOG_LEAST, TAIL, TAILS_MOST, TOP};
use std::io;

pub(super) fn tail_offsets(out: Out) -> io::Result<()> {
    writeln!(out, "# sizes and offsets about the saved one\n{}", line::record(&idle_record()))?;
    for offset in [0, 1, TOP] {
        for structs in [false, true] {
            about_offset(out, offset, structs)?;
        }
    }
    Ok(())
}

/// Finds and moves by one form alone, so that what it writes is seen.
fn about_offset(out: Out, offset: u64, structs: bool) -> io::Result<()> {
    let (there, claim) = (file(7, 7), passing());
    let (less, more) = (offset.saturating_sub(1), offset.saturating_add(1));
    table(out, TAIL, &[saved(7, 7, offset)])?;
    for size in [less, offset, more] {
        call(out, there, Task::Find { structs, size, claim })?;
    }
    for offset in [less, offset, more, offset] {
        call(out, there, Task::Move { structs, offset, claim })?;
    }
    call(out, file(7, 8), Task::Move { structs, offset: less, claim })?;
    call(out, file(7, 6), Task::Find { structs, size: less, claim })?;
    writeln!(out, "show")
}

/// Stamps, each with its domain: those that differ in one number do not pass,
/// nor does one with two of its numbers exchanged.
pub(super) fn claims() -> Vec<Claim> {
    let Claim { domain, stamp } = passing();
    let Stamp { revision, replacements, .. } = stamp;
    let mut claims = vec![passing(), Claim { domain: domain + 1, stamp }];
    let domains = [domain + 1, domain + PAST_32_BITS];
    let mut stamps = domains.map(|domain| Stamp { domain, ..stamp }).to_vec();
    let revisions = [revision - 1, revision + 1, revision + PAST_32_BITS, TOP];
    stamps.extend(revisions.map(|revision| Stamp { revision, ..stamp }));
    let counts = [0, replacements - 1, replacements + 1, replacements + PAST_32_BITS, TOP];
    stamps.extend(counts.map(|replacements| Stamp { replacements, ..stamp }));
    stamps.push(Stamp { revision: replacements, replacements: revision, ..stamp });
    claims.extend(stamps.into_iter().map(|stamp| Claim { domain, stamp }));
    claims.extend([0, TOP].map(|domain| Claim::of(&idle_record(), domain)));
    claims
}

/// Finding and moving a file that stands in the table, so that nothing but the
/// stamp and the record can refuse it.
pub(super) fn both(out: Out, claim: Claim) -> io::Result<()> {
    find(out, file(1, 1), 10, claim)?;
    advance(out, file(1, 1), 10, claim)
}

pub(super) fn tail_stamps(out: Out) -> io::Result<()> {
    writeln!(out, "# stamps and records of finding and moving")?;
    table(out, 2 * TAIL, &[saved(1, 1, 10), saved(2, 2, 20)])?;
    let restoring = Record { restoring: true, ..idle_record() };
    for record in some_records().into_iter().chain([restoring]) {
        writeln!(out, "{}", line::record(&record))?;
        both(out, passing())?;
    }
    writeln!(out, "{}", line::record(&idle_record()))?;
    for claim in claims() {
        both(out, claim)?;
    }
    let last_revision = Record { revision: TOP, ..idle_record() };
    let last_count = Record { replacements: TOP, ..idle_record() };
    for last in [last_revision, last_count] {
        writeln!(out, "{}", line::record(&last))?;
        both(out, Claim::of(&last, 3))?;
        both(out, passing())?;
    }
    elsewhere(out)
}

/// A wrong size elsewhere is nothing to the tail table, nor is a wrong tail
/// table to other calls.
fn elsewhere(out: Out) -> io::Result<()> {
    writeln!(out, "{}", line::record(&idle_record()))?;
    writeln!(out, "{}", line::lend(Place::Log, LOG_LEAST - 1))?;
    writeln!(out, "{}\n{}", line::lend(Place::Accepted, AREA - 1), line::lend(Place::Table, 0))?;
    both(out, passing())?;
    add(out, file(1, 1), 5)?;
    remove(out, file(3, 3))?;
    for line in line::lend_as_at_start() {
        writeln!(out, "{}", line)?;
    }
    writeln!(out, "{}\n{}", line::lend(Place::Tails, 1), line::tails(TOP))?;
    writeln!(out, "{}\nstamp 3", line::open_at(0, 0, "3:1"))?;
    writeln!(out, "begin 2:5 2:9 0:0\ncommit\nrefresh 4\nshow")
}

/// Calls on a full table that are refused, but for finding.
fn refused(out: Out, claim: Claim) -> io::Result<()> {
    let (there, absent) = (file(2, 2), file(3, 3));
    add(out, there, 5)?;
    add(out, absent, 5)?;
    remove(out, absent)?;
    for file in [there, absent] {
        find(out, file, 19, claim)?;
        advance(out, file, 19, claim)?;
    }
    Ok(())
}

/// At first all is wrong: words, count, order, record and stamp. Then one after
/// the other is put right.
pub(super) fn tail_refusals(out: Out) -> io::Result<()> {
    writeln!(out, "# each refusal of the tail table behind those before it")?;
    let wrong = Claim { domain: passing().domain + 1, ..passing() };
    let damaged = Record { phase: phase::COUNT, ..idle_record() };
    let staged = Record { staged: true, ..idle_record() };
    table(out, 2 * TAIL, &[saved(2, 2, 20), saved(1, 4, 40)])?;
    writeln!(out, "{}\n{}", line::tails(TOP), line::record(&damaged))?;
    for (line, claim) in [
        (line::lend(Place::Tails, 2 * TAIL + 1), wrong),
        (line::lend(Place::Tails, TAILS_MOST + TAIL), wrong),
        (line::lend(Place::Tails, 2 * TAIL), wrong),
        (line::tails(2), wrong),
        (line::put(Place::Tails, TAIL, 4), wrong),
        (line::record(&staged), wrong),
        (line::record(&staged), passing()),
        (line::record(&idle_record()), wrong),
        (line::record(&idle_record()), passing()),
    ] {
        writeln!(out, "{}", line)?;
        refused(out, claim)?;
    }
    writeln!(out, "show\n{}\n{}", line::lend(Place::Tails, TAILS_MOST), line::tails(0))
}
