//! The calls, the record and the steps of the transaction.
//!
//! Written from documents 01 and 02 alone. A step looks at a record and a call
//! and says either which refusal is given or what is answered and left; it
//! changes nothing itself, and knows payloads by their lengths alone. Sizes (6),
//! wholeness (7) and the log (12) are dealt with by the driver and by the replay,
//! which ask for a step only where none of 6 and 7 is given.

mod about;
mod asks;
mod begins;
mod call;
mod due;
mod ends;
mod given;
mod kind;
mod opening;
mod outcome;
pub mod phase;
mod record;
mod refusals;
mod reports;
pub mod row;
mod tail;

pub use about::{About, Name, CALLS};
pub use call::{Call, Lengths, Mark};
pub use ends::passes;
pub use given::{actions, Given, Goods, Payloads, Write};
pub use opening::{Claim, Opening, Stamp};
pub use outcome::Outcome;
pub use record::{Record, Ticket, Work};
pub use tail::{File, Tail, Task};

use crate::answer::{Answer, Answered, Refusal};

/// What a call answers, and the record that it leaves.
#[derive(Clone, Debug, PartialEq, Eq)]
pub struct Step {
    pub answered: Answered,
    pub record: Record,
}

impl Step {
    fn new(answered: Answered, record: Record) -> Step {
        Step { answered, record }
    }

    fn done(record: Record, values: &[u64]) -> Step {
        Step { answered: Answer::Done.with(values), record }
    }
}

/// What the transaction does with a call, sizes being right and the record
/// whole. An opening does not look at the record.
pub fn step(record: &Record, call: &Call) -> Result<Step, Refusal> {
    refusals::own(record, call)?;
    Ok(match *call {
        Call::Open { opening, length } => begins::open(opening, length),
        Call::Begin { structural, lengths, actions } => {
            begins::begin(record, structural, lengths, actions)
        }
        Call::Ask(work) => asks::ask(record, work),
        Call::ReportStructure { outcome, lengths, .. } => {
            reports::report_structure(record, outcome, lengths)
        }
        Call::ReportUpdate { outcome, .. } => reports::report_update(record, outcome),
        Call::ReportRollback { outcome, .. } => reports::report_rollback(record, outcome),
        Call::Edit(lengths) => begins::edit(record, lengths),
        Call::Commit => ends::commit(record),
        Call::Recover { length } => ends::recover(record, length),
        Call::RecoverRetained => ends::recover_retained(record),
        Call::Refresh { length } => ends::refresh(record, length),
        Call::Stamp { domain } => ends::stamp(record, domain),
        Call::Check(claim) => ends::check(record, claim),
        Call::Status { .. } | Call::Tail(_) => {
            unreachable!("status and the tail table have their own files")
        }
    })
}
