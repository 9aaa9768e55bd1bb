//! A table of calls by answers, with the cells that the documents allow.
//!
//! Written from documents 01 and 02 alone.

mod table;

pub use table::Table;

use crate::answer::{Answer, Answered};
use crate::make;
use crate::model::{phase, About, Name, CALLS};
use crate::script::Made;
use crate::tails;
use std::collections::BTreeSet;
use std::fmt;
use std::io::{self, Write};

/// A column of the table. Checking a stamp answers yes or no, and finding a
/// file that it is the same, that it shrank or that it is unknown; these are
/// counted in columns of their own.
#[derive(Clone, Copy, Debug, PartialEq, Eq, PartialOrd, Ord)]
pub enum Column {
    Done,
    Yes,
    No,
    Same,
    Shrunk,
    Unknown,
    Other(u64),
}

impl fmt::Display for Column {
    fn fmt(&self, to: &mut fmt::Formatter) -> fmt::Result {
        match self {
            Column::Done => to.pad(&Answer::Done.number().to_string()),
            Column::Yes => to.pad("yes"),
            Column::No => to.pad("no"),
            Column::Same => to.pad("same"),
            Column::Shrunk => to.pad("shrunk"),
            Column::Unknown => to.pad("unknown"),
            Column::Other(number) => to.pad(&number.to_string()),
        }
    }
}

impl fmt::Display for Name {
    fn fmt(&self, to: &mut fmt::Formatter) -> fmt::Result {
        to.pad(self.word())
    }
}

pub fn column_of(answer: Answer) -> Column {
    match answer {
        Answer::Done => Column::Done,
        other => Column::Other(other.number()),
    }
}

/// The columns of a call's answer 0, with the first value of each; none where
/// one column is enough.
fn told_apart(name: Name) -> &'static [(u64, Column)] {
    match name {
        Name::Check => &[(1, Column::Yes), (0, Column::No)],
        Name::FindTail | Name::FindStruct => &[
            (tails::SAME, Column::Same),
            (tails::SHRUNK, Column::Shrunk),
            (tails::UNKNOWN, Column::Unknown),
        ],
        _ => &[],
    }
}

/// The column in which an answer is counted.
pub fn counted(name: Name, answered: &Answered) -> Column {
    let first = answered.values().first();
    let apart = told_apart(name).iter().find(|(value, _)| Some(value) == first);
    apart.map_or(column_of(answered.answer), |(_, column)| *column)
}

/// The columns that the documents allow a call.
pub fn allowed(about: &About) -> BTreeSet<Column> {
    let mut columns: BTreeSet<Column> = about.answers().into_iter().map(column_of).collect();
    let apart = told_apart(about.name);
    if !apart.is_empty() {
        columns.remove(&Column::Done);
        columns.extend(apart.iter().map(|(_, column)| column));
    }
    columns
}

/// Calls by answers, and calls on a whole record by its phase.
pub struct Tally {
    pub cells: Table<Name, Column>,
    phases: [u64; phase::COUNT as usize],
}

impl Tally {
    pub fn new() -> Tally {
        let rows = CALLS.iter().map(|about| (about.name, allowed(about)));
        Tally { cells: Table::new("call", rows.collect()), phases: [0; phase::COUNT as usize] }
    }

    pub fn count(&mut self, made: &Made) {
        self.cells.count(made.name, counted(made.name, &made.answered));
        if made.before.whole() {
            self.phases[made.before.phase as usize] += 1;
        }
    }

    pub fn text(&self) -> String {
        let phases: Vec<String> = self.phases.iter().map(|count| count.to_string()).collect();
        format!(
            "{}calls in phases 0 to {}: {}\n{}",
            self.cells.grid(),
            phase::RECOVERED,
            phases.join(", "),
            self.cells.faults_told()
        )
    }
}

/// Prints the table of a seeded random script of about `calls` calls.
pub fn table(seed: u64, calls: u64, output: &mut dyn Write) -> io::Result<()> {
    let mut tally = Tally::new();
    make::make(seed, calls, &mut io::sink(), &mut |made| tally.count(made))?;
    write!(output, "{}", tally.text())
}
