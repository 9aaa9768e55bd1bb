//! The boundary pairs of the transaction: lengths, actions, serials, revisions
//! and the sizes of what is lent.
//!
//! Written from documents 01 and 02 and the page on the driver's script alone.

use super::records::{each_call, some_records};
use super::Out;
use crate::line;
use crate::model::{Claim, Opening, Record};
use crate::place::Place;
use crate::sizes::*;
use std::io;

/// What 32 bits do not hold: a length that is cut to them seems to fit, and a
/// stamp to pass.
pub(super) const PAST_32_BITS: u64 = 1 << 32;

pub(super) fn payload_lengths(out: Out) -> io::Result<()> {
    writeln!(out, "# payload lengths")?;
    for length in [0, 1, AREA - 1, AREA, AREA + 1, HELD_AREA] {
        for (candidate, recovery) in [(length, 1), (1, length), (length, length)] {
            both_payloads(out, candidate, recovery)?;
        }
        snapshot(out, length)?;
    }
    both_payloads(out, AREA, AREA + 1)?;
    both_payloads(out, AREA + 1, AREA)?;
    both_payloads(out, HELD_AREA, AREA + 1)?;
    let cut = [PAST_32_BITS - 1, PAST_32_BITS, PAST_32_BITS + AREA];
    for length in [COUNT_MOST, COUNT_MOST + 1].into_iter().chain(cut).chain([TOP]) {
        writeln!(out, "{}\nrefresh {}", opened(), length)?;
        writeln!(out, "begin 1:1 1:1 0:0\nrecover {}\nshow", length)?;
    }
    Ok(())
}

/// The opening of this part: its first ticket is 5.
fn opened() -> String {
    line::open_at(3, 4, "5:5")
}

/// A candidate and a recovery payload in every call that is given both. Before
/// each comes what is refused first: an edit while nothing is staged, begins at
/// the last revision and while something is staged, a report with a stale
/// ticket; and after the lengths, an action too many.
fn both_payloads(out: Out, candidate: u64, recovery: u64) -> io::Result<()> {
    let both = format!("{}:7 {}:8", candidate, recovery);
    let begins = format!("begin {} 2:2\nbegin-structural {} 2:2", both, both);
    writeln!(out, "{}\n{}", line::open_at(TOP, 4, "5:5"), begins)?;
    for begin in ["begin", "begin-structural"] {
        writeln!(out, "{}\nedit {}", opened(), both)?;
        writeln!(out, "{} {} {}:2\n{} {} 2:2", begin, both, TABLE + ACTION, begin, both)?;
    }
    writeln!(out, "show\n{}\nbegin-structural 1:1 1:1 2:2\n{}", opened(), begins)?;
    writeln!(out, "edit {}\nshow\nask-structure\nreport-structure 4 2 0 {}", both, both)?;
    writeln!(out, "report-structure 5 0 0 {}\nask-structure", both)?;
    writeln!(out, "report-structure 6 2 0 {}\nshow", both)
}

/// A snapshot in every call that is given one. Before it comes what is refused
/// first: a recovery while nothing is staged and with an action left, and a
/// refresh while something is staged.
fn snapshot(out: Out, length: u64) -> io::Result<()> {
    let payload = format!("{}:7", length);
    let (recover, refresh) = (format!("recover {}", length), format!("refresh {}", length));
    writeln!(out, "{}\nshow\n{}", line::open_at(0, 0, &payload), opened())?;
    writeln!(out, "fill {}\n{}\n{}\nshow", payload, recover, refresh)?;
    writeln!(out, "{}\nbegin 1:1 1:1 2:2\n{}\n{}", opened(), recover, refresh)?;
    writeln!(out, "{}\nbegin 1:1 1:1 0:0\nfill {}\n{}\nshow", opened(), payload, recover)
}

pub(super) fn action_counts(out: Out) -> io::Result<()> {
    writeln!(out, "# action counts")?;
    let open = line::open_at(0, 0, "3:1");
    let about = TABLE - 2..=TABLE + 3;
    for words in (0..=3).chain(about).chain(HELD_TABLE - 1..=HELD_TABLE) {
        for name in ["begin", "begin-structural"] {
            writeln!(out, "{}\n{} 2:5 2:9 {}:1000\nshow", open, name, words)?;
        }
    }
    writeln!(out, "# sixty-four actions done and undone")?;
    writeln!(out, "{}\nbegin 2:5 2:9 {}:500", open, TABLE)?;
    for ticket in 1..=MAX_ACTIONS {
        writeln!(out, "ask-update\nreport-update {} 2 0 {}", ticket, 9000 + ticket)?;
    }
    writeln!(out, "show\nask-update")?;
    for ticket in MAX_ACTIONS + 1..=2 * MAX_ACTIONS {
        writeln!(out, "ask-rollback\nreport-rollback {} 2 0 {}", ticket, 9000 + ticket)?;
    }
    writeln!(out, "show\nrecover-retained\nshow")
}

pub(super) fn serials(out: Out) -> io::Result<()> {
    writeln!(out, "# the last serials")?;
    for serial in TOP - 2..=TOP {
        let open = line::open_at(0, serial, "3:1");
        writeln!(out, "{}\nbegin-structural 2:5 2:9 2:1", open)?;
        writeln!(out, "ask-structure\nask-structure\nask-structure\nshow")?;
        writeln!(out, "report-structure {} 2 0 1:1 1:1\nask-structure\nask-rollback", TOP)?;
        writeln!(out, "ask-structure\nshow\n{}\nbegin 2:5 2:9 2:1", open)?;
        writeln!(out, "ask-update\nask-update\nask-update\nshow\nask-rollback\nshow")?;
        writeln!(out, "ask-rollback\nask-rollback\nask-update\nshow")?;
        writeln!(out, "report-rollback {} 2 0 4\nrecover 3\nshow", TOP)?;
    }
    Ok(())
}

pub(super) fn revisions(out: Out) -> io::Result<()> {
    writeln!(out, "# the last revisions")?;
    for revision in TOP - 2..=TOP {
        let opened = Record::opened(Opening::at(revision, 0), 3);
        let check = line::check(Claim::of(&opened, 3));
        writeln!(out, "{}\nstamp 3\n{}", line::open(opened.opening(), "3:1"), check)?;
        for _ in 0..2 {
            writeln!(out, "begin 2:5 2:9 0:0\nstamp 3\n{}\ncommit", check)?;
            writeln!(out, "{}\nrefresh 4\nshow", check)?;
        }
        let (long, many) = (AREA + 1, TABLE + ACTION);
        writeln!(out, "begin-structural {}:5 2:9 {}:0\nedit 1:1 1:1\ncommit", long, many)?;
    }
    Ok(())
}

/// Every call with each thing it may be lent in wrong sizes and then in its
/// right one.
pub(super) fn lent_sizes(out: Out) -> io::Result<()> {
    writeln!(out, "# sizes of areas and table")?;
    let areas: &[u64] = &[0, 1, AREA - 1, AREA + 1, HELD_AREA, AREA];
    let table: &[u64] = &[0, TABLE - 2, TABLE - 1, TABLE + 1, TABLE + 2, HELD_TABLE, TABLE];
    for place in Place::of_transaction() {
        let sizes = if *place == Place::Table { table } else { areas };
        for size in sizes {
            writeln!(out, "{}\n{}", line::lend(*place, *size), line::open_at(5, 6, "3:1"))?;
            for record in some_records() {
                for call in each_call() {
                    writeln!(out, "{}\n{}", line::record(&record), call)?;
                }
            }
            writeln!(out, "show")?;
        }
    }
    Ok(())
}
