//! Bad events by their sort: a row for each kind, and of reports for each
//! outcome, and a column for each word that can be bad.
//!
//! Written from documents 01 and 02 alone.

use crate::input::{self, Event, Fault, KIND, OUTCOME};
use crate::model::{Name, Outcome};
use crate::recording::bad;
use crate::sizes::INPUT_EVENT;
use std::collections::{BTreeMap, BTreeSet};

/// The characters of a row's name, and of a cell.
const ROW: usize = 24;
const CELL: usize = 10;

const COLUMNS: [&str; INPUT_EVENT as usize] =
    ["kind", "ticket", "outcome", "code", "actions", "candidate", "recovery", "zero"];

/// The kind and the outcome of a bad event, those past the last taken together,
/// and the word that is bad.
pub type Sort = (u64, u64, usize);

/// The sort of an event, if it is bad.
pub fn sort(event: &Event) -> Option<Sort> {
    let at = match input::read(event).err()? {
        Fault::Kind => KIND,
        Fault::Outcome => OUTCOME,
        Fault::Unused(at) => at,
    };
    let outcome = match Name::of_kind(event[KIND]) {
        Some(name) if bad::reports(name) => event[OUTCOME].min(Outcome::MOST + 2),
        _ => 0,
    };
    Some((event[KIND].min(Name::RECORDED.len() as u64 + 2), outcome, at))
}

/// Every sort that there is.
pub fn sorts() -> BTreeSet<Sort> {
    bad::all().iter().filter_map(sort).collect()
}

fn row_name(kind: u64, outcome: u64) -> String {
    match Name::of_kind(kind) {
        None if kind > Name::RECORDED.len() as u64 + 1 => format!("kind over {}", kind - 1),
        None => format!("kind {}", kind),
        Some(name) if !bad::reports(name) => name.word().to_string(),
        Some(name) if outcome > Outcome::MOST + 1 => {
            format!("{} over {}", name.word(), Outcome::MOST + 1)
        }
        Some(name) => format!("{} {}", name.word(), outcome),
    }
}

/// How often each sort came.
pub fn text(cells: &BTreeMap<Sort, u64>) -> String {
    let sorts = sorts();
    let rows: BTreeSet<(u64, u64)> =
        sorts.iter().map(|(kind, outcome, _)| (*kind, *outcome)).collect();
    let heads: Vec<String> = COLUMNS.iter().map(|word| format!("{:>CELL$}", word)).collect();
    let mut text = format!("{:<ROW$}{}\n", "bad events", heads.concat());
    for (kind, outcome) in rows {
        let cell = |at| match cells.get(&(kind, outcome, at)) {
            None if !sorts.contains(&(kind, outcome, at)) => format!("{:>CELL$}", "-"),
            count => format!("{:>CELL$}", count.unwrap_or(&0)),
        };
        let row: Vec<String> = (0..COLUMNS.len()).map(cell).collect();
        text.push_str(&format!("{:<ROW$}{}\n", row_name(kind, outcome), row.concat()));
    }
    text
}
