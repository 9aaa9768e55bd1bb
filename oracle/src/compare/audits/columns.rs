//! The columns in which an audit's answers are counted beside the phase, and those
//! that each phase is allowed.
//!
//! Written from document 01 alone.

use crate::audit::Answers;
use crate::model::{phase, Work};
use std::collections::BTreeSet;
use std::fmt;

#[derive(Clone, Copy, Debug, PartialEq, Eq, PartialOrd, Ord)]
pub enum Column {
    Lines,
    Commit(bool),
    Recovery(bool),
    /// The due asking, by its number.
    Asking(u64),
}

impl fmt::Display for Column {
    fn fmt(&self, to: &mut fmt::Formatter) -> fmt::Result {
        match self {
            Column::Lines => to.pad("lines"),
            Column::Commit(allowed) => to.pad(&format!("commit {}", u64::from(*allowed))),
            Column::Recovery(allowed) => to.pad(&format!("recovery {}", u64::from(*allowed))),
            Column::Asking(number) => to.pad(&format!("asking {}", number)),
        }
    }
}

/// The columns that a line of answers fills.
pub fn filled(answers: &Answers) -> [Column; 4] {
    let asking = Column::Asking(Work::number_of(answers.asking));
    [Column::Lines, Column::Commit(answers.commit), Column::Recovery(answers.recovery), asking]
}

/// The columns that the document allows a phase. Phase 0 is that of an idle record
/// too, and of one without structure work, where updates or rollbacks may be left.
pub fn allowed(phase: u64) -> BTreeSet<Column> {
    let both = [false, true];
    let (commit, recovery) = match phase {
        phase::NONE => (&both[..], &both[..]),
        phase::READY => (&both[1..], &both[..1]),
        phase::RECOVERED => (&both[..1], &both[1..]),
        _ => (&both[..1], &both[..1]),
    };
    let asking: &[Option<Work>] = match phase {
        phase::NONE => &[None, Some(Work::Update), Some(Work::Rollback)],
        phase::UPDATES => &[Some(Work::Update)],
        phase::UNDO => &[Some(Work::Rollback)],
        phase::READY | phase::RECOVERED => &[None],
        _ => &[Some(Work::Structure)],
    };
    let mut columns = BTreeSet::from([Column::Lines]);
    columns.extend(commit.iter().map(|allowed| Column::Commit(*allowed)));
    columns.extend(recovery.iter().map(|allowed| Column::Recovery(*allowed)));
    columns.extend(asking.iter().map(|work| Column::Asking(Work::number_of(*work))));
    columns
}
