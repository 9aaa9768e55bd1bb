//! Request 6 on document 01's cases: after each event a line, written by hand from
//! the document, of how many events there are, the phase, whether a commit and a
//! recovery are allowed, the due asking and the revision.
//!
//! Written from documents 01 and 02 and the page on the driver's script alone.

use super::{begin, report};
use crate::input::Event;
use crate::model::Name::{self, *};
use crate::model::{Opening, Outcome};
use crate::program::Program;
use crate::recording::{bytes, event, full};
use crate::sizes::TOP;

/// The line of the record that all but the last are opened at: revision 7.
const IDLE: &str = "0 0 0 0 0 7";

/// Holds the lines after each event to those that are audited.
fn holds(serial: u64, rows: &[(Event, &str)]) {
    let events: Vec<Event> = rows.iter().map(|row| row.0).collect();
    let words = ["7".to_string(), serial.to_string()];
    let told = Program::Audit.told(&words).expect("numbers");
    let mut lines = vec![IDLE];
    lines.extend(rows.iter().map(|row| row.1));
    let wanted = format!("{}\nended 0 {}\n", lines.join("\n"), events.len());
    assert_eq!(Program::Audit.text(&bytes(&full(&events)), &told), wanted);
    assert_eq!(told.opening, Opening::at(7, serial));
}

fn begun(name: Name, actions: u64) -> Event {
    begin(name, actions, 3, 4)
}

fn call(name: Name) -> Event {
    event(name, &[])
}

fn done(name: Name, ticket: u64) -> Event {
    report(name, ticket, Outcome::DONE)
}

/// "P4 update-only, 0 actions: commit at once."
#[test]
fn p4_commits_at_once() {
    holds(40, &[(begun(Begin, 0), "1 0 1 1 0 7"), (call(Commit), "2 0 0 0 0 8")]);
}

/// "P5 the same: recover at once, revision kept."
#[test]
fn p5_recovers_at_once() {
    for recovery in [Recover, RecoverRetained] {
        holds(40, &[(begun(Begin, 0), "1 0 1 1 0 7"), (call(recovery), "2 0 0 0 0 7")]);
    }
}

/// "P6 structural, 0 actions: More thrice, Finished, ask update Finished, Adopt
/// Finished, commit."
#[test]
fn p6_goes_through() {
    holds(
        40,
        &[
            (begun(BeginStructural, 0), "1 1 0 0 1 7"),
            (call(AskStructure), "2 1 0 0 1 7"),
            (done(ReportStructure, 41), "3 2 0 0 1 7"),
            (call(AskStructure), "4 2 0 0 1 7"),
            (done(ReportStructure, 42), "5 3 0 0 1 7"),
            (call(AskStructure), "6 3 0 0 1 7"),
            (done(ReportStructure, 43), "7 4 0 0 1 7"),
            (call(AskStructure), "8 4 0 0 1 7"),
            (done(ReportStructure, 44), "9 5 0 0 2 7"),
            (call(AskUpdate), "10 6 0 0 1 7"),
            (call(AskStructure), "11 6 0 0 1 7"),
            (done(ReportStructure, 45), "12 7 1 0 0 7"),
            (call(Commit), "13 0 0 0 0 8"),
        ],
    );
}

/// "P7 structural, 2 actions, rollback at Mount: Finished, phase 9, then More
/// thrice, Finished."
#[test]
fn p7_is_rolled_back_at_mount() {
    holds(
        40,
        &[
            (begun(BeginStructural, 2), "1 1 0 0 1 7"),
            (call(AskStructure), "2 1 0 0 1 7"),
            (done(ReportStructure, 41), "3 2 0 0 1 7"),
            (call(AskStructure), "4 2 0 0 1 7"),
            (done(ReportStructure, 42), "5 3 0 0 1 7"),
            (call(AskRollback), "6 9 0 0 1 7"),
            (call(AskStructure), "7 9 0 0 1 7"),
            (done(ReportStructure, 43), "8 10 0 0 1 7"),
            (call(AskStructure), "9 10 0 0 1 7"),
            (done(ReportStructure, 44), "10 11 0 0 1 7"),
            (call(AskStructure), "11 11 0 0 1 7"),
            (done(ReportStructure, 45), "12 12 0 0 1 7"),
            (call(AskStructure), "13 12 0 0 1 7"),
            (done(ReportStructure, 46), "14 13 0 1 0 7"),
            (call(RecoverRetained), "15 0 0 0 0 7"),
        ],
    );
}

/// "P8 update-only, 3 actions, Done, Waiting, ask rollback: entries 2, ticket for
/// number 1; Done More, Done Finished."
#[test]
fn p8_undoes_what_waits_too() {
    holds(
        40,
        &[
            (begun(Begin, 3), "1 0 0 0 2 7"),
            (call(AskUpdate), "2 0 0 0 2 7"),
            (done(ReportUpdate, 41), "3 0 0 0 2 7"),
            (call(AskUpdate), "4 0 0 0 2 7"),
            (report(ReportUpdate, 42, Outcome::WAITING), "5 0 0 0 2 7"),
            (call(AskRollback), "6 0 0 0 3 7"),
            (done(ReportRollback, 43), "7 0 0 0 3 7"),
            (call(AskRollback), "8 0 0 0 3 7"),
            (done(ReportRollback, 44), "9 0 0 1 0 7"),
            (call(RecoverRetained), "10 0 0 0 0 7"),
        ],
    );
}

/// "P11 idle rollback Finished, then ask update 5": an idle record that is
/// restoring has no due asking.
#[test]
fn p11_is_idle_and_restoring() {
    holds(40, &[(call(AskRollback), "1 0 0 0 0 7"), (call(AskUpdate), "2 0 0 0 0 7")]);
}

/// "11, or a ticket", with one serial left: the update is begun, and neither the
/// next one nor its rollback can be asked for; the askings that are due stay due.
#[test]
fn the_last_serial_is_worn() {
    holds(
        TOP - 1,
        &[
            (begun(Begin, 2), "1 0 0 0 2 7"),
            (call(AskUpdate), "2 0 0 0 2 7"),
            (done(ReportUpdate, TOP), "3 0 0 0 2 7"),
            (call(AskUpdate), "4 0 0 0 2 7"),
            (call(AskRollback), "5 0 0 0 2 7"),
        ],
    );
}
