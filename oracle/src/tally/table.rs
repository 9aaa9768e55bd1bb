//! The cells of a table, as that of calls by answers.
//!
//! Written from documents 01 and 02 alone.

use std::collections::{BTreeMap, BTreeSet};
use std::fmt::Display;

/// The fewest characters of a cell.
const CELL: usize = 8;

/// Rows, each with the columns that it is allowed, and how often each cell came.
pub struct Table<Row, Column> {
    /// What the rows are.
    head: &'static str,
    rows: Vec<(Row, BTreeSet<Column>)>,
    cells: BTreeMap<(Row, Column), u64>,
}

impl<Row: Copy + Ord + Display, Column: Copy + Ord + Display> Table<Row, Column> {
    pub fn new(head: &'static str, rows: Vec<(Row, BTreeSet<Column>)>) -> Table<Row, Column> {
        Table { head, rows, cells: BTreeMap::new() }
    }

    pub fn count(&mut self, row: Row, column: Column) {
        *self.cells.entry((row, column)).or_insert(0) += 1;
    }

    /// How many were counted.
    pub fn counted(&self) -> u64 {
        self.cells.values().sum()
    }

    /// Every column that is allowed some row or was filled.
    fn columns(&self) -> BTreeSet<Column> {
        let allowed = self.rows.iter().flat_map(|(_, columns)| columns);
        allowed.chain(self.cells.keys().map(|(_, column)| column)).copied().collect()
    }

    fn at(&self, row: Row, column: Column) -> u64 {
        self.cells.get(&(row, column)).copied().unwrap_or(0)
    }

    /// The allowed cells that are empty, and the filled ones not allowed.
    pub fn faults(&self) -> (Vec<String>, Vec<String>) {
        let (mut empty, mut strange) = (Vec::new(), Vec::new());
        for (row, allowed) in &self.rows {
            for column in self.columns() {
                let filled = self.at(*row, column) > 0;
                let cell = format!("{} {}", row, column);
                match (allowed.contains(&column), filled) {
                    (true, false) => empty.push(cell),
                    (false, true) => strange.push(cell),
                    _ => {}
                }
            }
        }
        (empty, strange)
    }

    /// The table itself.
    pub fn grid(&self) -> String {
        let mut heads = vec![self.head.to_string()];
        heads.extend(self.columns().iter().map(|column| column.to_string()));
        let mut lines = vec![heads];
        lines.extend(self.rows.iter().map(|(row, allowed)| self.row(*row, allowed)));
        let longest = |cells: &mut dyn Iterator<Item = &String>| {
            cells.map(|cell| cell.len() + 1).max().unwrap_or(0)
        };
        let first = longest(&mut lines.iter().map(|cells| &cells[0]));
        let others = longest(&mut lines.iter().flat_map(|cells| &cells[1..])).max(CELL);
        lines.iter().map(|cells| in_widths(cells, first, others)).collect()
    }

    fn row(&self, row: Row, allowed: &BTreeSet<Column>) -> Vec<String> {
        let cell = |column| match self.at(row, column) {
            0 if !allowed.contains(&column) => "-".to_string(),
            count => count.to_string(),
        };
        let cells = self.columns().into_iter().map(cell);
        std::iter::once(row.to_string()).chain(cells).collect()
    }

    pub fn faults_told(&self) -> String {
        let (empty, strange) = self.faults();
        format!(
            "allowed and empty: {}\nfilled and not allowed: {}\n",
            listed(&empty),
            listed(&strange)
        )
    }
}

/// A line of cells, the first to the left and the others to the right.
fn in_widths(cells: &[String], first: usize, others: usize) -> String {
    let rest: Vec<String> = cells[1..].iter().map(|cell| format!("{:>others$}", cell)).collect();
    format!("{:<first$}{}\n", cells[0], rest.concat())
}

fn listed(cells: &[String]) -> String {
    if cells.is_empty() {
        "none".to_string()
    } else {
        cells.join(", ")
    }
}
