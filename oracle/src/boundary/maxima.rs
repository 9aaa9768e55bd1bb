//! The boundary pairs of records at the last revisions and the last counts of
//! replacements, whole and not.
//!
//! Written from documents 01 and 02 and the page on the driver's script alone.

use super::records::{each_call, idle_record, some_records};
use super::replacements::{BEGIN, ENDS};
use super::{empty, without_log, Out};
use crate::line;
use crate::log;
use crate::model::{phase, Record};
use crate::place::Place;
use crate::sizes::{AREA, LOG_LEAST, LOG_MOST, TOP};
use std::io;

/// Records of every kind, and the two others that may end, at a revision and a
/// count.
fn records_at((revision, replacements): (u64, u64)) -> Vec<Record> {
    let staged = Record { staged: true, ..idle_record() };
    let forward = phase::FORWARD_MOST;
    let ready = Record { phase: phase::READY, forward, ..staged.clone() };
    let back = phase::BACK_MOST;
    let recovered = Record { phase: phase::RECOVERED, back, restoring: true, ..staged };
    let records = some_records().into_iter().chain([ready, recovered]);
    records.map(|record| Record { revision, replacements, ..record }).collect()
}

/// Every call on records at the last counts, at none and at the last revisions,
/// without a log and through one: staged at a maximum they are damaged.
pub(super) fn count_records(out: Out) -> io::Result<()> {
    writeln!(out, "# records at the last counts of replacements and the last revisions")?;
    for words in [0, LOG_MOST] {
        writeln!(out, "{}", line::lend(Place::Log, words))?;
        writeln!(out, "{}", line::open(idle_record().opening(), "3:1"))?;
        let some = idle_record().revision;
        let numbers = [(some, 0), (some, TOP - 1), (some, TOP), (TOP - 1, 0), (TOP, 0)];
        for record in numbers.into_iter().flat_map(records_at) {
            for call in each_call() {
                writeln!(out, "{}\n{}", line::record(&record), call)?;
            }
            writeln!(out, "show")?;
        }
    }
    without_log(out)
}

/// At the maximum, what is refused before and after: a wrong size and damage,
/// and a full log.
pub(super) fn count_order(out: Out) -> io::Result<()> {
    writeln!(out, "# the last count of replacements beside sizes and a full log")?;
    let idle = Record { replacements: TOP, ..idle_record() };
    let staged = Record { staged: true, ..idle.clone() };
    for size in [AREA - 1, AREA] {
        writeln!(out, "{}", line::lend(Place::Exchange, size))?;
        for record in [&idle, &staged] {
            writeln!(out, "{}\nrefresh {}\nrecover 4", line::record(record), AREA + 1)?;
        }
    }
    writeln!(out, "{}\n{}", line::lend(Place::Log, LOG_LEAST), empty())?;
    writeln!(out, "{}", line::put(Place::Log, log::COUNT as u64, 1))?;
    let before = records_at((idle.revision, TOP - 1));
    for record in before.into_iter().chain([idle, staged]) {
        writeln!(out, "{}\n{}\nrefresh 4", line::record(&record), BEGIN)?;
        writeln!(out, "{}\nshow", ENDS.join("\n"))?;
    }
    without_log(out)
}
