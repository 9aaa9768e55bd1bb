//! Two fixed scripts: the boundary pairs, and all small records.
//!
//! Written from documents 01 and 02 and the page on the driver's script alone.

mod lines;
mod logs;
mod maxima;
mod records;
mod replacements;
mod stamped;
mod statuses;
mod sweep;
mod tail_lines;
mod tails;
mod transaction;

pub use sweep::sweep;

use crate::line;
use crate::place::Place;
use std::io::{self, Write};

type Out<'a> = &'a mut dyn Write;

/// The boundary pairs that document 01 wants run, lengths of 4,096 bytes and of
/// one more, 64 and 65 actions, and the last serials; and those of the count of
/// replacements and of the tail table.
pub fn limits(out: Out) -> io::Result<()> {
    transaction::payload_lengths(out)?;
    transaction::action_counts(out)?;
    transaction::serials(out)?;
    replacements::last_counts(out)?;
    replacements::refused_openings(out)?;
    replacements::maxima(out)?;
    replacements::old_stamps(out)?;
    tails::tail_sizes(out)?;
    tails::tail_counts(out)?;
    tails::tail_orders(out)?;
    tails::tail_places(out)?;
    tails::tail_room(out)?;
    stamped::tail_offsets(out)?;
    stamped::tail_stamps(out)?;
    stamped::tail_refusals(out)
}

/// The boundary pairs of the documents.
pub fn boundary(out: Out) -> io::Result<()> {
    limits(out)?;
    transaction::revisions(out)?;
    maxima::count_records(out)?;
    maxima::count_order(out)?;
    transaction::lent_sizes(out)?;
    logs::log_sizes(out)?;
    logs::log_heads(out)?;
    logs::log_room(out)?;
    statuses::status_lengths(out)?;
    statuses::status_bytes(out)?;
    records::record_edges(out)?;
    lines::lines(out)?;
    writeln!(out, "show")
}

/// The lines that bring a driver to how it is at its start, but for its bytes
/// and words.
pub fn start(out: Out) -> io::Result<()> {
    for line in line::lend_as_at_start() {
        writeln!(out, "{}", line)?;
    }
    writeln!(out, "{}\n{}", line::tails(0), empty())
}

/// The opening at 0, 0, 0 with an empty payload.
fn empty() -> String {
    line::open_at(0, 0, "0:0")
}

/// Lends no log, and opens.
fn without_log(out: Out) -> io::Result<()> {
    writeln!(out, "{}\n{}", line::lend(Place::Log, 0), empty())
}
