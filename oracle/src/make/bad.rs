//! The bad lines that a made script picks from.
//!
//! Written from the page on the driver's script alone.

use crate::line;
use crate::model::Outcome;
use crate::place::Place;
use crate::sizes::*;

/// Lines whose words are wrong whatever the sizes are.
const ODD_WORDS: [&str; 24] = [
    "",
    "# a comment",
    "#commit",
    " commit",
    "commit ",
    "commit 1",
    "Commit",
    "ask-structure\t",
    "ask-update\r",
    "ask  update",
    "ask-rollback 0",
    "recover",
    "recover 1 2",
    "recover -1",
    "recover +1",
    "recover 0x10",
    "stamp 18446744073709551616",
    "stamp 99999999999999999999999",
    "stamp 0000000000000000000000000000000000007",
    "check 1 1",
    "check 1 1 1",
    "check 1 1 1 1 1",
    "check 007 7 0 0",
    "begin 1:1 1:1",
];

/// More of them, after those that the sizes decide.
const ODD_ENDS: [&str; 15] = [
    "report-update 1 2 x 0",
    "report-rollback 1 2 0",
    "show 1",
    " ",
    "\t",
    "\r",
    "  ",
    "0",
    ":",
    "stamp",
    "stamp  1",
    "stamp 1\0",
    "st\u{e9}mp 1",
    "#\u{e9}",
    "record",
];

/// Lines with a number past what the driver holds or takes.
fn odd_numbers() -> Vec<String> {
    let (long, wide) = (HELD_AREA + 1, BYTE_MOST + 1);
    let (many, seed) = (HELD_TABLE + 1, SEED_MOST + 1);
    let mut lines = vec![
        format!("begin {}:0 1:1 0:0", long),
        format!("begin 1:{} 1:1 0:0", seed),
        format!("begin 1:1 1:1 {}:0", many),
        format!("begin 1:1 1:1 2:{}", seed),
    ];
    let words = ["begin 1: 1:1 0:0", "begin :1 1:1 0:0", "begin 1:1:1 1:1 0:0"];
    lines.extend(words.iter().chain(&["begin  1:1 1:1 0:0", "edit 1 1", "lend q 1"]).map(owned));
    for place in [Place::Accepted, Place::Table, Place::Log, Place::Groups, Place::Tails] {
        lines.push(line::lend(place, place.held() + 1));
    }
    lines.extend([
        "lend a".to_string(),
        line::put(Place::Accepted, HELD_AREA, 1),
        line::put(Place::Accepted, 0, wide),
        line::put(Place::Table, HELD_TABLE, 1),
        line::put(Place::Status, 0, wide),
        line::put(Place::Log, HELD_LOG, 0),
        line::put(Place::Tails, HELD_TAILS, 0),
        format!("fill {}:0", long),
        "link 1 2".to_string(),
        format!("report-structure 1 {} 0 1:1 1:1", Outcome::MOST + 1),
    ]);
    lines
}

fn owned(line: &&str) -> String {
    line.to_string()
}

/// All of them, with comments and a few lines that are only just commands.
pub(super) fn all() -> Vec<String> {
    let mut lines: Vec<String> = ODD_WORDS.iter().map(owned).collect();
    lines.extend(odd_numbers());
    lines.extend(ODD_ENDS.iter().map(owned));
    lines.extend(line::bad_rows());
    lines.extend(line::bad_tails());
    lines.extend(["open 0 0 0", "open 0 0 0:0", "open 0 0 0 0 0:0"].iter().map(owned));
    lines
}
