//! The boundary pairs of the count of replacements: its last numbers in the
//! calls that raise it or need room for it, and in stamps.
//!
//! Written from documents 01 and 02 and the page on the driver's script alone.

use super::records::idle_record;
use super::stamped::{both, claims};
use super::tail_lines::{saved, table};
use super::Out;
use crate::line;
use crate::model::{Claim, Opening, Record, Stamp};
use crate::place::Place;
use crate::sizes::{ACTION, AREA, TABLE, TAIL, TOP};
use std::io;

/// A begin that may be ended at once, and the calls that end it.
pub(super) const BEGIN: &str = "begin 2:5 2:9 0:0";
pub(super) const ENDS: [&str; 3] = ["commit", "recover 4", "recover-retained"];

/// What replaces settings: a begin and its end, or a refresh.
fn replacing() -> Vec<Vec<&'static str>> {
    let mut ways = ENDS.map(|end| vec![BEGIN, end]).to_vec();
    ways.push(vec!["refresh 4"]);
    ways
}

/// The record of an opening at a revision and a count of replacements.
fn opened(revision: u64, replacements: u64) -> Record {
    Record::opened(Opening { replacements, ..Opening::at(revision, 5) }, 3)
}

fn open(out: Out, record: &Record) -> io::Result<()> {
    writeln!(out, "{}", line::open(record.opening(), "3:1"))
}

/// A stamp, and the checks of a record's own and of those one off; past the
/// maximum comes 0.
fn stamps(out: Out, record: &Record) -> io::Result<()> {
    writeln!(out, "stamp 3")?;
    let Claim { domain, stamp } = Claim::of(record, 3);
    for by in [TOP, 0, 1] {
        let replacements = stamp.replacements.wrapping_add(by);
        let stamp = Stamp { replacements, ..stamp };
        writeln!(out, "{}", line::check(Claim { domain, stamp }))?;
    }
    Ok(())
}

/// Calls that are refused whatever the counts are.
fn refused(out: Out) -> io::Result<()> {
    let (long, many) = (AREA + 1, TABLE + ACTION);
    writeln!(out, "begin {}:5 2:9 {}:0\nbegin 2:5 {}:9 0:0", long, many, long)?;
    writeln!(out, "begin-structural {}:5 2:9 0:0\nbegin-structural 2:5 2:9 {}:0", long, many)?;
    writeln!(out, "refresh {}", long)
}

/// The last counts, with the settings replaced in every way: at the maximum
/// begins and refresh are refused, and a stamp is taken and passes all the same.
pub(super) fn last_counts(out: Out) -> io::Result<()> {
    writeln!(out, "# the last counts of replacements")?;
    for count in TOP - 2..=TOP {
        for way in replacing() {
            let record = opened(4, count);
            open(out, &record)?;
            for line in way {
                stamps(out, &record)?;
                refused(out)?;
                writeln!(out, "{}", line)?;
            }
            stamps(out, &record)?;
            refused(out)?;
            writeln!(out, "show\n{}\nrefresh 4\nshow", BEGIN)?;
        }
    }
    Ok(())
}

/// Openings that are refused: the record that they leave has no count.
pub(super) fn refused_openings(out: Out) -> io::Result<()> {
    writeln!(out, "# refused openings at a count of replacements")?;
    let payload = format!("{}:1", AREA + 1);
    for count in [1, TOP] {
        open(out, &opened(4, 9))?;
        writeln!(out, "{}\nstamp 3\nshow", line::open(opened(4, count).opening(), &payload))?;
        open(out, &opened(4, 9))?;
        writeln!(out, "{}", line::lend(Place::Accepted, AREA - 1))?;
        open(out, &opened(4, count))?;
        writeln!(out, "stamp 3\nshow\n{}", line::lend(Place::Accepted, AREA))?;
    }
    Ok(())
}

/// Revision and count at their maxima, one below and at 0: a begin needs room
/// for both, a refresh for the count alone.
pub(super) fn maxima(out: Out) -> io::Result<()> {
    writeln!(out, "# the last revision beside the last count of replacements")?;
    for revision in [0, TOP - 1, TOP] {
        for count in [0, TOP - 1, TOP] {
            let record = opened(revision, count);
            for begin in [BEGIN, "begin-structural 2:5 2:9 2:0"] {
                open(out, &record)?;
                refused(out)?;
                writeln!(out, "{}\ncommit\nshow\nstamp 3", begin)?;
            }
            open(out, &record)?;
            writeln!(out, "refresh 4\nrefresh 5\nstamp 3\n{}\nshow", BEGIN)?;
        }
    }
    Ok(())
}

/// A stamp is taken, and the settings are replaced, twice by a refresh so that
/// the same bytes are in force again: the old stamp does not pass, in no call.
pub(super) fn old_stamps(out: Out) -> io::Result<()> {
    writeln!(out, "# old stamps after replacements")?;
    table(out, 2 * TAIL, &[saved(1, 1, 10), saved(2, 2, 20)])?;
    for way in replacing().into_iter().chain([vec!["refresh 3", "refresh 3"]]) {
        let record = opened(7, 0);
        open(out, &record)?;
        for line in [&["stamp 3"][..], &way].concat() {
            writeln!(out, "{}\n{}", line, line::check(Claim::of(&record, 3)))?;
            both(out, Claim::of(&record, 3))?;
        }
        writeln!(out, "stamp 3\nshow")?;
    }
    writeln!(out, "{}", line::record(&idle_record()))?;
    for claim in claims() {
        writeln!(out, "{}", line::check(claim))?;
    }
    Ok(())
}
