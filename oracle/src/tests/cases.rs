//! Document 01's cases P1 to P12, of which request 3 of document 02 changes the
//! first and the last, and the last ticket.
//!
//! Written from documents 01 and 02 and the page on the driver's script alone.

use super::{holds, open, play, record_after, staged, stamped};
use crate::line;
use crate::model::{phase, Claim, Opening, Record, Ticket, Work};
use crate::sizes::TOP;
use std::ops::RangeInclusive;

#[test]
fn p1_stamp_of_an_opening() {
    let opening = Opening { replacements: 5, ..Opening::at(7, 0) };
    holds(&[(&line::open(opening, "0:0"), "0"), ("stamp 3", "0 3 7 5")]);
}

#[test]
fn p2_begin_at_the_last_revision() {
    holds(&[
        (&open(TOP, 0, "0:0"), "0"),
        ("begin 1:1 1:1 0:0", "3"),
        ("begin-structural 1:1 1:1 0:0", "3"),
    ]);
}

#[test]
fn p3_staged_at_the_last_revision() {
    let record = line::record(&Record { revision: TOP, ..staged() });
    let check = line::check(Claim::of(&staged(), 0));
    holds(&[(&record, ""), ("commit", "7"), ("ask-update", "7"), (&check, "7")]);
}

#[test]
fn p4_commit_at_once() {
    holds(&[(&open(4, 0, "3:1"), "0"), ("begin 2:5 1:9 0:0", "0"), ("commit", "0 3 1 0")]);
}

#[test]
fn p5_recover_at_once() {
    let lines = [&open(4, 0, "3:1"), "begin 2:5 1:9 0:0", "recover 6", "stamp 1"];
    assert_eq!(play(&lines), ["0", "0", "0 3 2 1", "0 1 4 1"]);
}

#[test]
fn p6_structural_without_actions() {
    holds(&[
        (&open(0, 0, "3:1"), "0"),
        ("begin-structural 2:5 2:9 0:0", "0"),
        ("ask-structure", "20 1 1"),
        ("report-structure 1 2 0 1:1 1:1", "23"),
        ("ask-structure", "20 2 2"),
        ("report-structure 2 2 0 1:1 1:1", "23"),
        ("ask-structure", "20 3 3"),
        ("report-structure 3 2 0 1:1 1:1", "23"),
        ("ask-structure", "20 4 4"),
        ("report-structure 4 2 0 1:1 1:1", "24"),
        ("ask-update", "24"),
        ("ask-structure", "20 5 6"),
        ("report-structure 5 2 0 4:1 5:1", "24"),
        ("commit", "0 3 5 0"),
        ("stamp 0", "0 0 1 1"),
    ]);
}

/// Asks for structure and reports it done, with each of some tickets.
fn structure_done(tickets: RangeInclusive<u64>) -> Vec<String> {
    let pair =
        |ticket| ["ask-structure".to_string(), format!("report-structure {} 2 0 1:1 1:1", ticket)];
    tickets.flat_map(pair).collect()
}

#[test]
fn p7_rollback_at_mount() {
    let mut lines = vec![open(0, 0, "3:1"), "begin-structural 2:5 2:9 4:0".to_string()];
    lines.extend(structure_done(1..=2));
    lines.push("ask-rollback".to_string());
    assert_eq!(play(&lines), ["0", "0", "20 1 1", "23", "20 2 2", "23", "24"]);
    let begun = Record { accepted: 3, candidate: 1, recovery: 1, ..staged() };
    let back = Record { phase: phase::RECOVER_REMOVE, forward: 2, restoring: true, ..begun };
    assert_eq!(record_after(&lines), Record { serial: 2, ..back.clone() });
    lines.extend(structure_done(3..=6));
    let wanted = ["20 3 9", "23", "20 4 10", "23", "20 5 11", "23", "20 6 12", "24"];
    assert_eq!(play(&lines)[7..], wanted);
    let recovered = Record { serial: 6, phase: phase::RECOVERED, back: 4, ..back };
    assert_eq!(record_after(&lines), recovered);
}

#[test]
fn p8_an_action_begun_is_undone() {
    let mut lines = vec![
        open(0, 0, "3:1"),
        "begin 2:5 2:9 6:0".to_string(),
        "ask-update".to_string(),
        "report-update 1 2 0 8".to_string(),
        "ask-update".to_string(),
        "report-update 2 0 0 9".to_string(),
        "ask-rollback".to_string(),
    ];
    assert_eq!(play(&lines), ["0", "0", "20 1 0", "23", "20 2 1", "21", "20 3 1"]);
    let begun = Record { serial: 3, accepted: 3, candidate: 2, recovery: 2, ..staged() };
    let counted = Record { entries: 2, applied: 1, attempted: 2, restoring: true, ..begun };
    let live = Some(Ticket { work: Work::Rollback, number: 3 });
    assert_eq!(record_after(&lines), Record { live, ..counted });
    for line in ["report-rollback 3 2 0 7", "ask-rollback", "report-rollback 4 2 0 6"] {
        lines.push(line.to_string());
    }
    assert_eq!(play(&lines)[7..], ["23", "20 4 0", "24"]);
}

#[test]
fn p9_a_replaced_ticket_is_stale() {
    holds(&[
        (&open(0, 0, "0:0"), "0"),
        ("begin-structural 0:0 0:0 0:0", "0"),
        ("ask-structure", "20 1 1"),
        ("ask-structure", "20 2 1"),
        ("report-structure 1 2 0 0:0 0:0", "10"),
        ("report-structure 2 2 0 0:0 0:0", "23"),
    ]);
}

#[test]
fn p10_ask_structure_in_five_and_seven() {
    let updates = Record { phase: phase::UPDATES, forward: 4, ..staged() };
    let ready = Record { phase: phase::READY, forward: 5, ..staged() };
    holds(&[
        (&line::record(&updates), ""),
        ("ask-structure", "4"),
        (&line::record(&ready), ""),
        ("ask-structure", "24"),
    ]);
}

#[test]
fn p11_idle_rollback() {
    holds(&[(&open(0, 0, "0:0"), "0"), ("ask-rollback", "24"), ("ask-update", "5")]);
}

#[test]
fn p12_no_stamp_outlives_a_recovery() {
    let check = line::check(stamped(7, 0));
    holds(&[
        (&open(7, 0, "0:0"), "0"),
        ("stamp 3", "0 3 7 0"),
        (&check, "0 1"),
        ("begin 0:0 0:0 0:0", "0"),
        (&check, "0 0"),
        ("recover 0", "0 0 0 0"),
        (&check, "0 0"),
        ("stamp 3", "0 3 7 1"),
    ]);
}

#[test]
fn worn_and_the_last_ticket() {
    holds(&[
        (&open(0, TOP - 1, "0:0"), "0"),
        ("begin 0:0 0:0 2:0", "0"),
        ("ask-update", &format!("20 {} 0", TOP)),
        ("ask-update", "11"),
        ("ask-rollback", "11"),
        (&format!("report-update {} 1 99 5", TOP), "22 99"),
    ]);
}
