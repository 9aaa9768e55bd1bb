//! Lines at the edge of what a script may say.
//!
//! Written from the page on the driver's script alone.

use super::Out;
use crate::line;
use crate::model::{row, Outcome, Record};
use crate::place::Place;
use crate::sizes::*;
use std::io;

/// More bytes than a program is likely to read at once.
const LONG: usize = 1 << 17;

pub(super) fn lines(out: Out) -> io::Result<()> {
    writeln!(out, "# lines at the edge of what a script may say")?;
    for width in [LINE_MOST, LINE_MOST + 1] {
        for (front, back) in [("stamp ", ""), ("check 7 ", " 0 0")] {
            let width = width as usize - front.len() - back.len();
            writeln!(out, "{}{:0>width$}{}", front, 7, back, width = width)?;
        }
    }
    for first in ["#", "x"] {
        writeln!(out, "{}{}\nstamp 7", first, "x".repeat(LONG))?;
    }
    elements(out)?;
    let seeds = SEED_MOST + 1;
    let (most, long) = (format!("{}:{}", HELD_AREA, SEED_MOST), format!("{}:0", HELD_AREA + 1));
    let seed = format!("1:{}", seeds);
    for payload in [&most[..], &long, &seed, "00001:0001", "1", "1:", ":1"] {
        writeln!(out, "fill {}\n{}", payload, line::open_at(0, 0, payload))?;
    }
    for line in odd() {
        writeln!(out, "{}", line)?;
    }
    Ok(())
}

/// The last elements held and the first that are not, and values likewise.
fn elements(out: Out) -> io::Result<()> {
    use Place::{Accepted, Groups, Log, Status, Table, Tails};
    let places = [Accepted, Table, Log, Groups, Status, Tails];
    for place in places {
        let held = place.held();
        writeln!(out, "{}", line::put(place, held - 1, BYTE_MOST))?;
        writeln!(out, "{}", line::put(place, held, BYTE_MOST))?;
        writeln!(out, "{}", line::put(place, 0, BYTE_MOST + 1))?;
        writeln!(out, "{}", line::put(place, 0, 0))?;
        writeln!(out, "{}\n{}", line::lend(place, held), line::lend(place, held + 1))?;
    }
    for place in places {
        writeln!(out, "{}", line::lend(place, place.lent_at_start()))?;
    }
    Ok(())
}

fn odd() -> Vec<String> {
    let mut lines = vec![
        format!("begin 1:1 1:1 {}:{}", HELD_TABLE, SEED_MOST),
        format!("begin 1:1 1:1 {}:0", HELD_TABLE + 1),
        format!("report-structure 1 {} 0 1:1 1:1", Outcome::MOST),
        format!("report-structure 1 {} 0 1:1 1:1", Outcome::MOST + 1),
        "report-structure 1 2 18446744073709551616 1:1 1:1".to_string(),
        "link 1 2".to_string(),
    ];
    lines.extend(line::bad_rows());
    lines.extend(line::bad_tails());
    lines.push(line::row_with(row::TICKET, 1));
    let row = Record::default().row();
    lines.extend([line::row(&row[1..]), line::row(&[&row[..], &[0]].concat())]);
    lines.extend(["", " ", " show", "show ", "show\r"].map(String::from));
    lines
}
