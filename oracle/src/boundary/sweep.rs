//! A fixed script of small records, whole or not, in every phase.
//!
//! Written from documents 01 and 02 and the page on the driver's script alone.

use super::records::{each_call, idle_record, live};
use super::Out;
use crate::line;
use crate::log;
use crate::model::{phase, Claim, Record, Work};
use crate::place::Place;
use crate::sizes::LOG_MOST;
use std::io;

/// Small records of every phase, whole or not, and every call on the whole.
pub fn sweep(out: Out) -> io::Result<()> {
    writeln!(out, "{}", line::lend(Place::Log, LOG_MOST))?;
    let opening = idle_record().opening();
    writeln!(out, "{}\n{}", line::open(opening, "3:1"), line::lend(Place::Log, 0))?;
    for phase in 0..=phase::COUNT {
        for flags in 0..4 {
            for counts in 0..48 {
                sweep_tickets(out, phase, flags, counts)?;
            }
        }
        sweep_phase_counts(out, phase)?;
        writeln!(out, "show")?;
    }
    Ok(())
}

/// A record of a phase; its flags are staged and restoring, its counts are
/// entries, applied and attempted below 3, 4 and 4.
fn small(phase: u64, flags: u64, counts: u64) -> Record {
    Record {
        candidate: 2,
        recovery: 1,
        staged: flags & 1 != 0,
        restoring: flags & 2 != 0,
        phase,
        forward: some_forward(phase),
        back: phase::back(phase),
        entries: counts / 16,
        applied: counts / 4 % 4,
        attempted: counts % 4,
        ..idle_record()
    }
}

/// A forward count that the phase allows, another for each phase that allows
/// any.
fn some_forward(phase: u64) -> u64 {
    match phase {
        phase::RECOVERED => phase::FORWARD_MOST,
        phase::RECOVER_REMOVE..=phase::RECOVER_SETTLE_MOUNTED => phase::back(phase),
        other => phase::forward(other).map_or(0, |counts| *counts.start()),
    }
}

/// Every forward and back count of a phase, and one past each.
fn sweep_phase_counts(out: Out, phase: u64) -> io::Result<()> {
    for forward in 0..=phase::FORWARD_MOST + 1 {
        for back in 0..=phase::BACK_MOST + 1 {
            let count = u64::from(phase == phase::UNDO);
            let record = Record {
                staged: true,
                restoring: phase >= phase::UNDO,
                entries: count,
                attempted: count,
                forward,
                back,
                ..small(phase, 0, 0)
            };
            writeln!(out, "{}\nask-structure\nask-rollback", line::record(&record))?;
        }
    }
    Ok(())
}

fn sweep_tickets(out: Out, phase: u64, flags: u64, counts: u64) -> io::Result<()> {
    let works = [None].into_iter().chain(Work::ALL.map(Some));
    for work in works {
        let record = Record { live: work.and_then(live), ..small(phase, flags, counts) };
        let line = line::record(&record);
        writeln!(out, "{}\n{}", line, line::check(Claim::of(&record, 3)))?;
        if record.whole() {
            writeln!(out, "{}", line::lend(Place::Log, LOG_MOST))?;
            writeln!(out, "{}", line::put(Place::Log, log::COUNT as u64, 0))?;
            for call in each_call() {
                writeln!(out, "{}\n{}", line, call)?;
            }
            writeln!(out, "show\n{}", line::lend(Place::Log, 0))?;
        }
    }
    Ok(())
}
