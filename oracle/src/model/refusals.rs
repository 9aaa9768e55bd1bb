//! When each of a call's own refusals is given. Their order stands in the table
//! of calls.
//!
//! Written from documents 01 and 02 alone.

use super::{phase, Call, Record};
use crate::answer::Refusal;
use crate::sizes::{AREA, MAX_ACTIONS, TOP};

/// The first of a call's own refusals that is given, sizes being right and the
/// record whole.
pub(super) fn own(record: &Record, call: &Call) -> Result<(), Refusal> {
    let mut refusals = call.about().refusals.iter();
    match refusals.find(|refusal| given(**refusal, record, call)) {
        Some(refusal) => Err(*refusal),
        None => Ok(()),
    }
}

fn given(refusal: Refusal, record: &Record, call: &Call) -> bool {
    match refusal {
        Refusal::Pending => record.staged,
        Refusal::Idle => !record.staged,
        Refusal::Capacity => at_capacity(record, call),
        Refusal::NotReady => not_ready(record, call),
        Refusal::Recovering => !record.updates(),
        Refusal::TooMany => call.actions() > MAX_ACTIONS,
        Refusal::Stale => call.ticket() != record.live,
        Refusal::Worn => gives_ticket(record, call) && record.serial == TOP,
        Refusal::LongCandidate => call.lengths().candidate > AREA,
        Refusal::LongRecovery => call.lengths().recovery > AREA,
        Refusal::LongSnapshot => call.snapshot() > AREA,
        Refusal::BadArea | Refusal::Damaged | Refusal::LogFull | Refusal::NoStatus => {
            unreachable!("no refusal of a call's own")
        }
        Refusal::BadEvent
        | Refusal::TableFull
        | Refusal::Twice
        | Refusal::GoesBack
        | Refusal::Absent
        | Refusal::NotPassed => {
            unreachable!("no refusal of the transaction")
        }
    }
}

/// A begin needs room for a revision and a replacement, a refresh for a
/// replacement alone.
fn at_capacity(record: &Record, call: &Call) -> bool {
    let worn = record.replacements == TOP;
    match call {
        Call::Begin { .. } => record.revision == TOP || worn,
        Call::Refresh { .. } => worn,
        _ => unreachable!("no other call is refused so"),
    }
}

fn not_ready(record: &Record, call: &Call) -> bool {
    match call {
        Call::Ask(_) => matches!(record.phase, phase::NONE | phase::UPDATES | phase::UNDO),
        Call::Commit => !record.complete() || !matches!(record.phase, phase::NONE | phase::READY),
        Call::Recover { .. } | Call::RecoverRetained => {
            record.entries > 0 || !matches!(record.phase, phase::NONE | phase::RECOVERED)
        }
        _ => unreachable!("no other call is refused so"),
    }
}

fn gives_ticket(record: &Record, call: &Call) -> bool {
    match call {
        Call::Ask(work) => record.has_left(*work),
        _ => unreachable!("no other call gives tickets"),
    }
}
