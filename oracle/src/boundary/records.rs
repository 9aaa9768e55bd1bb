//! The boundary pairs of a record's fields; and the calls and the records that
//! other boundary pairs are tried with.
//!
//! Written from documents 01 and 02 and the page on the driver's script alone.

use super::Out;
use crate::line;
use crate::model::{phase, Claim, Opening, Record, Ticket, Work};
use crate::sizes::{AREA, COUNT_MOST, MAX_ACTIONS, TOP};
use std::io;

/// The revision, the serial, which is the live ticket too, and the count of
/// replacements of the records here.
const REVISION: u64 = 5;
const SERIAL: u64 = 7;
const REPLACEMENTS: u64 = 11;

/// Every call, with arguments that are in order; one ticket alone is not.
pub(super) fn each_call() -> Vec<String> {
    let calls = [
        "begin 2:5 3:9 4:70",
        "begin-structural 2:5 3:9 4:70",
        "ask-structure",
        "report-structure 7 0 5 4:1 5:2",
        "report-structure 7 2 5 4:1 5:2",
        "ask-update",
        "report-update 7 1 5 77",
        "report-update 7 2 5 77",
        "ask-rollback",
        "report-rollback 7 0 5 88",
        "report-rollback 7 2 5 88",
        "edit 6:3 7:4",
        "commit",
        "recover 8",
        "recover-retained",
        "refresh 9",
        "stamp 3",
        &line::check(Claim::of(&idle_record(), 3)),
        "report-structure 6 2 5 4:1 5:2",
    ];
    calls.map(String::from).to_vec()
}

/// The record that the others here differ from in a few fields.
pub(super) fn idle_record() -> Record {
    let opening = Opening { replacements: REPLACEMENTS, ..Opening::at(REVISION, SERIAL) };
    Record::opened(opening, 3)
}

pub(super) fn live(work: Work) -> Option<Ticket> {
    Some(Ticket { work, number: SERIAL })
}

/// One idle record, one that may end, one for each kind of ticket, one bad.
pub(super) fn some_records() -> Vec<Record> {
    let idle = Record { candidate: 1, ..idle_record() };
    let staged = Record { staged: true, ..idle_record() };
    let structure = Record { phase: phase::REMOVE, live: live(Work::Structure), ..staged.clone() };
    let update = Record { entries: 2, attempted: 1, live: live(Work::Update), ..staged.clone() };
    let rollback =
        Record { entries: 1, restoring: true, live: live(Work::Rollback), ..update.clone() };
    let bad = Record { entries: 2, ..rollback.clone() };
    vec![idle, staged, structure, update, rollback, bad]
}

pub(super) fn record_edges(out: Out) -> io::Result<()> {
    writeln!(out, "# both sides of a whole record's bounds")?;
    let staged = Record { staged: true, accepted: 1, candidate: 2, recovery: 3, ..idle_record() };
    for length in [AREA - 1, AREA, AREA + 1, COUNT_MOST] {
        for record in [
            Record { accepted: length, ..staged.clone() },
            Record { candidate: length, ..staged.clone() },
            Record { recovery: length, ..staged.clone() },
        ] {
            writeln!(out, "{}\ncommit\nshow", line::record(&record))?;
        }
    }
    count_edges(out, &staged)?;
    ticket_edges(out, &staged)
}

fn count_edges(out: Out, staged: &Record) -> io::Result<()> {
    let most = MAX_ACTIONS;
    for (entries, applied, attempted) in [
        (most, most, most),
        (most + 1, most + 1, most + 1),
        (most, most - 1, most),
        (most, most, most + 1),
        (COUNT_MOST, 0, 0),
        (most, most - 2, most),
    ] {
        let updated = Record { entries, applied, attempted, ..staged.clone() };
        let forward = phase::FORWARD_MOST;
        let ready = Record { phase: phase::READY, forward, ..updated.clone() };
        for record in [updated, ready] {
            writeln!(out, "{}\nask-rollback\nshow", line::record(&record))?;
        }
    }
    Ok(())
}

fn ticket_edges(out: Out, staged: &Record) -> io::Result<()> {
    for (serial, number) in [(0, 0), (1, 1), (1, 0), (0, 1), (TOP, TOP), (TOP, TOP - 1)] {
        let live = Some(Ticket { work: Work::Structure, number });
        let record = Record { serial, phase: phase::REMOVE, live, ..staged.clone() };
        writeln!(out, "{}", line::record(&record))?;
        writeln!(out, "report-structure {} 2 0 1:1 1:1\nshow", number)?;
    }
    Ok(())
}
