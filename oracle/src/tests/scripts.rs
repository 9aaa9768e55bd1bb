//! The log's example, the example of the page on the driver's script, status
//! calls, how bad lines are taken, and the scripts that are made.
//!
//! Written from documents 01 and 02 and the page on the driver's script alone.

use super::{holds, open, play, play_bytes};
use crate::place::Place;
use crate::sizes::{AREA, EVENT, HELD_AREA, LENT_IDS, LINE_MOST, LOG_LEAST};
use crate::status::{READY, STATUS_BITS};
use crate::{boundary, command, driver, line, log, make, script, tally};

#[test]
fn the_log_of_the_example() {
    let mut driver = driver::Driver::new();
    let lend = line::lend(Place::Log, log::words(3, EVENT));
    for line in [&lend, &open(0, 0, "0:0"), "begin 0:0 0:0 0:0", "commit"] {
        driver.obey(command::command(line.as_bytes()).expect("a command"));
    }
    let wanted = [2, 4, 3, 0, 1, 0, 0, 0, 9, 0, 0, 1, 0, 0, 0, 0];
    assert_eq!(driver.log[..wanted.len()], wanted);
}

#[test]
fn a_full_log_and_the_order_of_refusals() {
    holds(&[
        (&line::lend(Place::Log, LOG_LEAST), ""),
        (&open(0, 0, "0:0"), "0"),
        ("ask-structure", "4"),
        ("ask-structure", "12"),
        ("ask-rollback", "12"),
        (&format!("begin {}:0 0:0 0:0", AREA + 1), "14"),
        (&format!("begin 0:0 {}:0 0:0", AREA + 1), "15"),
        (&format!("refresh {}", AREA + 1), "16"),
        ("begin 0:0 0:0 0:0", "12"),
        ("commit", "2"),
        ("report-update 0 2 0 0", "10"),
        (&line::put(Place::Log, log::ZERO as u64, 1), ""),
        ("ask-update", "7"),
        ("stamp 1", "0 1 0 0"),
        (&line::lend(Place::Candidate, AREA - 1), ""),
        ("commit", "6"),
        (&line::lend(Place::Log, LOG_LEAST + 2), ""),
        ("ask-update", "6"),
        ("edit 1:1 1:1", "6"),
        ("refresh 1", "6"),
    ]);
}

#[test]
fn the_example_of_the_page() {
    let lines = ["lend l 16", &open(0, 0, "3:1"), "begin 2:5 2:9 0:0", "commit", "show"];
    let said = play(&lines);
    assert_eq!(said[..3], ["0", "0", "0 3 2 0"]);
    assert_eq!(said[3], "record 1 0 2 0 0 0 0 0 0 0 0 0 0 0 0 1");
    let starts: Vec<&str> = said[4..].iter().map(|s| s.split(' ').next().unwrap()).collect();
    assert_eq!(starts, ["bytes", "table", "log", "status", "tails"]);
}

#[test]
fn status_calls() {
    holds(&[
        ("link 0 1", "13"),
        ("link 1 1", "13"),
        (&line::put(Place::Groups, 1, READY.into()), ""),
        ("link 1 0", "13"),
        ("initialize 1", "13"),
        ("link 1 1", "0"),
        ("link 1 1", "13"),
        ("cancel 1", "0"),
        ("initialize 1", "0"),
        (&line::put(Place::Status, 1, u64::from(STATUS_BITS) + 1), ""),
        ("cancel 1", "7"),
        (&format!("cancel {}", LENT_IDS), "13"),
        (&line::lend(Place::Groups, LENT_IDS + 1), ""),
        ("cancel 0", "6"),
    ]);
}

#[test]
fn bad_lines() {
    let just = format!("stamp {:0>width$}", 7, width = LINE_MOST as usize - "stamp ".len());
    let long = just.replace("stamp ", "stamp 0");
    let comment = format!("# {}", "x".repeat(HELD_AREA as usize));
    holds(&[
        ("# comment", ""),
        ("", ""),
        (" stamp 1", "? 3"),
        ("stamp 1 ", "? 4"),
        ("stamp", "? 5"),
        ("stamp 1 2", "? 6"),
        ("stamp\t1", "? 7"),
        ("stamp 1\r", "? 8"),
        ("stamp -1", "? 9"),
        ("stamp 18446744073709551616", "? 10"),
        ("stamp 00018446744073709551615", "0 18446744073709551615 0 0"),
        (&long, "? 12"),
        (&just, "0 7 0 0"),
        (&comment, ""),
        (&line::lend(Place::Accepted, HELD_AREA + 1), "? 15"),
        ("put g 0 256", "? 16"),
        ("link 1 2", "? 17"),
        ("nothing", "? 18"),
        ("stamp 5", "0 5 0 0"),
    ]);
}

#[test]
fn bytes_that_are_no_lines_of_text() {
    assert_eq!(play_bytes(b"stamp 1\n\n\nbad\n"), ["0 1 0 0", "? 4"]);
    assert_eq!(play_bytes(b"\xff\n#\xff\nstamp 2"), ["? 1", "0 2 0 0"]);
    assert!(play_bytes(b"").is_empty());
}

#[test]
fn lines_across_small_buffers() {
    let text = format!("stamp 1\n{}\nstamp 2", "y".repeat(3000));
    let mut output = Vec::new();
    let mut input = std::io::BufReader::with_capacity(3, text.as_bytes());
    script::play(&mut input, &mut output).expect("playing into memory");
    assert_eq!(output, b"0 1 0 0\n? 2\n0 2 0 0\n");
}

#[test]
fn made_scripts_fill_every_cell() {
    let mut tally = tally::Tally::new();
    let mut made = Vec::new();
    make::make(1, 20_000, &mut made, &mut |made| tally.count(made)).unwrap();
    let (empty, strange) = tally.cells.faults();
    assert_eq!((empty, strange), (vec![], vec![]), "{}", tally.text());
    let mut again = Vec::new();
    make::make(1, 20_000, &mut again, &mut |_| {}).unwrap();
    assert!(made == again);
}

#[test]
fn fixed_scripts_play() {
    let mut text = Vec::new();
    boundary::boundary(&mut text).unwrap();
    assert!(play_bytes(&text).len() > 1000);
}
