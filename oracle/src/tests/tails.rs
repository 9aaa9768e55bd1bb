//! Document 02's request 2, the tail table, case by case.
//!
//! Written from documents 01 and 02 and the page on the driver's script alone.

use super::{holds, open, staged, stamped};
use crate::model::{phase, Claim, File, Record, Tail, Task};
use crate::place::Place;
use crate::sizes::{TAIL, TOP};
use crate::{line, script};

fn finding(structs: bool, inode: u64, size: u64, claim: Claim) -> String {
    let file = File { device: 1, inode };
    line::tail(Tail { file, task: Task::Find { structs, size, claim } })
}

fn moving(structs: bool, inode: u64, offset: u64, claim: Claim) -> String {
    let file = File { device: 1, inode };
    line::tail(Tail { file, task: Task::Move { structs, offset, claim } })
}

/// "Given device, inode and size, finding answers Same with the saved offset,
/// Shrunk when the size is below the offset, or Unknown."
#[test]
fn finding_says_same_shrunk_or_unknown() {
    for structs in [false, true] {
        let find = |inode, size| finding(structs, inode, size, stamped(7, 0));
        holds(&[
            (&open(7, 0, "0:0"), "0"),
            (&find(2, 0), "0 2"),
            ("add-tail 1 2 10", "0"),
            (&find(2, 9), "0 1"),
            (&find(2, 10), "0 0 10"),
            (&find(2, 11), "0 0 10"),
            (&find(1, 11), "0 2"),
            ("remove-tail 1 2", "0"),
            (&find(2, 11), "0 2"),
        ]);
    }
}

/// Calls with stamps on a file that stands in the table with offset 5, from
/// revision 7 on over a commit and a refresh, and what they answer where the
/// stamp passes.
fn holds_by_stamps(call: &dyn Fn(Claim) -> String, passed: &str) {
    let other = Claim { domain: 4, ..stamped(7, 0) };
    holds(&[
        (&open(7, 0, "0:0"), "0"),
        ("add-tail 1 1 5", "0"),
        (&call(stamped(7, 0)), passed),
        (&call(other), "35"),
        (&call(stamped(8, 0)), "35"),
        (&call(stamped(7, 1)), "35"),
        ("begin 0:0 0:0 0:0", "0"),
        (&call(stamped(7, 0)), "35"),
        ("commit", "0 0 0 0"),
        (&call(stamped(7, 0)), "35"),
        (&call(stamped(8, 1)), passed),
        ("refresh 0", "0 0"),
        (&call(stamped(8, 1)), "35"),
        (&call(stamped(8, 2)), passed),
        (&line::record(&Record { phase: phase::COUNT, ..staged() }), ""),
        (&call(stamped(8, 2)), "7"),
        ("add-tail 1 2 5", "0"),
        ("remove-tail 1 1", "0"),
    ]);
}

/// "Finding and moving take a stamp: then 35 if it does not pass."
#[test]
fn finding_and_moving_take_a_stamp() {
    for structs in [false, true] {
        holds_by_stamps(&|claim| finding(structs, 1, 5, claim), "0 0 5");
        holds_by_stamps(&|claim| moving(structs, 1, 5, claim), "0");
    }
}

/// "Adding a pair twice is 32, then a full table 31; removing or moving an
/// absent pair 34, then an offset that goes back 33."
#[test]
fn refusals_stand_in_their_order() {
    for structs in [false, true] {
        let advance = |inode, offset| moving(structs, inode, offset, stamped(0, 0));
        let wrong = moving(structs, 2, 0, stamped(1, 0));
        holds(&[
            ("lend f 0", ""),
            ("add-tail 1 1 5", "31"),
            ("lend f 3", ""),
            ("add-tail 1 1 5", "0"),
            ("add-tail 1 1 6", "32"),
            ("add-tail 1 2 6", "31"),
            ("remove-tail 1 2", "34"),
            (&wrong, "35"),
            (&advance(2, 0), "34"),
            (&advance(1, 4), "33"),
            (&advance(1, 5), "0"),
            (&advance(1, 6), "0"),
            (&advance(1, 5), "33"),
            ("tails 2", ""),
            (&wrong, "7"),
            ("add-tail 1 1 5", "7"),
            ("remove-tail 1 2", "7"),
            ("lend f 4", ""),
            (&wrong, "6"),
            ("add-tail 1 1 5", "6"),
            ("remove-tail 1 2", "6"),
        ]);
    }
}

/// "Its words are a multiple of 3, at most 768, else BadArea."
#[test]
fn the_words_are_a_multiple_of_3() {
    for (words, answer) in [(0, "34"), (1, "6"), (3, "34"), (767, "6"), (768, "34"), (771, "6")] {
        holds(&[(&line::lend(Place::Tails, words), ""), ("remove-tail 0 0", answer)]);
    }
}

/// "A count that does not fit, or used records out of order, are Damaged next."
#[test]
fn the_count_fits_and_the_records_are_in_order() {
    let past = TOP / TAIL + 1;
    for (count, answer) in [(0, "34"), (1, "0"), (2, "7"), (past, "7"), (TOP, "7")] {
        holds(&[("lend f 3", ""), (&line::tails(count), ""), ("remove-tail 0 0", answer)]);
    }
    for (device, inode, answer) in
        [(1, 0, "7"), (1, 1, "7"), (1, 2, "34"), (0, TOP, "7"), (2, 0, "34"), (TOP, TOP, "34")]
    {
        holds(&[
            ("tails 2", ""),
            ("put f 0 1", ""),
            ("put f 1 1", ""),
            (&line::put(Place::Tails, TAIL, device), ""),
            (&line::put(Place::Tails, TAIL + 1, inode), ""),
            ("remove-tail 9 9", answer),
        ]);
    }
}

/// Holds the table after some lines to its count and its first words.
fn leaves(lines: &[&str], used: u64, words: &[u64]) {
    let mut player = script::Player::new();
    for line in lines {
        player.hear(line.as_bytes());
    }
    assert_eq!((player.driver.used, &player.driver.tails[..words.len()]), (used, words));
}

/// "Removing zeroes the freed last record"; adding and removing keep the order,
/// and what lies past the used records stays but for the record written.
#[test]
fn records_are_added_moved_and_removed() {
    let mut lines = vec!["put f 9 7", "put f 12 7", "add-tail 2 2 20", "add-tail 1 8 80"];
    lines.extend(["add-tail 1 9 90", "add-tail 3 0 30"]);
    leaves(&lines, 4, &[1, 8, 80, 1, 9, 90, 2, 2, 20, 3, 0, 30, 7, 0, 0]);
    let back = moving(false, 9, 89, stamped(0, 0));
    lines.extend(["remove-tail 1 8", "remove-tail 1 8", "add-tail 2 2 0", &back]);
    leaves(&lines, 3, &[1, 9, 90, 2, 2, 20, 3, 0, 30, 0, 0, 0, 7, 0, 0]);
    let flat = moving(false, 9, 91, stamped(0, 0));
    lines.extend(["remove-tail 3 0", &flat]);
    leaves(&lines, 2, &[1, 9, 91, 2, 2, 20, 0, 0, 0, 0, 0, 0, 7, 0, 0]);
    let structs = moving(true, 9, 92, stamped(0, 0));
    lines.extend(["remove-tail 2 2", &structs]);
    leaves(&lines, 1, &[1, 9, 92, 0, 0, 0, 0, 0, 0, 0, 0, 0, 7, 0, 0]);
}
