//! Document 02's requests, case by case; the tail table has a file of its own.
//!
//! Written from documents 01 and 02 and the page on the driver's script alone.

use super::{holds, open, record_after, staged, stamped};
use crate::line;
use crate::model::{Opening, Record};
use crate::sizes::{ACTION, AREA, TABLE, TOP};

/// "14 candidate, 15 recovery, 16 snapshot (open, recover, refresh), in that
/// order where several apply."
#[test]
fn request_1_says_which_payload_was_too_long() {
    let long = AREA + 1;
    let many = TABLE + ACTION;
    let (candidate, recovery) =
        (format!("{}:1 {}:1", long, AREA), format!("{}:1 {}:1", AREA, long));
    let both = format!("{}:1 {}:1", long, long);
    holds(&[
        (&open(0, 0, &format!("{}:1", long)), "16"),
        (&open(0, 0, "0:0"), "0"),
        (&format!("refresh {}", long), "16"),
        (&format!("begin {} {}:0", both, many), "14"),
        (&format!("begin {} {}:0", recovery, many), "15"),
        (&format!("begin {}:1 {}:1 {}:0", AREA, AREA, many), "9"),
        (&format!("begin-structural {} 2:0", candidate), "14"),
        ("begin-structural 1:1 1:1 2:0", "0"),
        (&format!("edit {}", both), "14"),
        (&format!("edit {}", recovery), "15"),
        ("ask-structure", "20 1 1"),
        (&format!("report-structure 0 2 0 {}", both), "10"),
        (&format!("report-structure 1 2 0 {}", candidate), "14"),
        (&format!("report-structure 1 2 0 {}", both), "14"),
        (&format!("report-structure 1 2 0 {}", recovery), "15"),
        ("ask-rollback", "24"),
        (&format!("recover {}", long), "4"),
        (&open(0, 0, "0:0"), "0"),
        ("begin 1:1 1:1 0:0", "0"),
        (&format!("recover {}", long), "16"),
        (&format!("recover {}", AREA), "0 0 1 1"),
    ]);
}

/// The opening at revision 7 and a count of replacements.
fn open_count(replacements: u64) -> String {
    line::open(Opening { replacements, ..Opening::at(7, 0) }, "0:0")
}

/// "The record gets a count of replacements, raised by commit, both recoveries
/// and refresh; open takes it, and the stamp carries it as a third number."
#[test]
fn request_3_counts_replacements() {
    let (opened, begin) = (open_count(5), "begin 0:0 0:0 0:0");
    for (lines, revision) in [
        (vec!["refresh 0"], 7),
        (vec![begin, "recover 0"], 7),
        (vec![begin, "recover-retained"], 7),
        (vec![begin, "commit"], 8),
    ] {
        let lines: Vec<&str> = [vec![&opened[..]], lines].concat();
        let record = record_after(&lines);
        assert_eq!((record.revision, record.replacements), (revision, 6), "{:?}", lines);
        let [old, new, other] =
            [5, 6, 7].map(|replacements| line::check(stamped(revision, replacements)));
        holds(&[
            (&line::record(&record), ""),
            ("stamp 3", &format!("0 3 {} 6", revision)),
            (&old, "0 0"),
            (&new, "0 1"),
            (&other, "0 0"),
            (begin, "0"),
            (&new, "0 0"),
        ]);
    }
}

/// A begin, an asking, a report, an edit and what is refused replace nothing.
#[test]
fn request_3_counts_nothing_else() {
    let lines = [
        &open_count(5)[..],
        "commit",
        "recover 0",
        "begin 0:0 0:0 2:0",
        "refresh 0",
        "edit 1:1 1:1",
        "ask-update",
        "report-update 1 2 0 0",
        "recover-retained",
        "ask-rollback",
        "report-rollback 2 2 0 0",
    ];
    assert_eq!(record_after(&lines).replacements, 5);
    assert_eq!(record_after(&[open_count(5), open(0, 0, "5000:0")]), Record::default());
}

/// "Begin and refresh give Capacity when that count is at the u64 maximum, after
/// Pending": and so before what is too long.
#[test]
fn request_3_the_last_count() {
    let long = AREA + 1;
    let begins = ["begin", "begin-structural"].map(|name| format!("{} {}:1 0:0 0:0", name, long));
    let refresh = format!("refresh {}", long);
    let refused = |answers: [&'static str; 3]| {
        let calls = [&begins[0][..], &begins[1], &refresh];
        calls.into_iter().zip(answers).collect::<Vec<_>>()
    };
    let (before, last) = (open_count(TOP - 1), format!("0 3 7 {}", TOP));
    let mut pairs = vec![(&before[..], "0")];
    pairs.extend(refused(["14", "14", "16"]));
    pairs.push(("begin 0:0 0:0 0:0", "0"));
    pairs.extend(refused(["1", "1", "1"]));
    pairs.push(("recover 0", "0 0 0 0"));
    pairs.extend(refused(["3", "3", "3"]));
    let check = line::check(stamped(7, TOP));
    pairs.extend([("refresh 0", "3"), ("stamp 3", &last[..]), (&check[..], "0 1")]);
    holds(&pairs);
}

/// Refresh looks at the count of replacements alone, begin at the revision too.
#[test]
fn request_3_the_last_revision_can_be_refreshed() {
    let begin = "begin 0:0 0:0 0:0";
    holds(&[(&open(TOP, 0, "0:0"), "0"), ("refresh 0", "0 0"), (begin, "3"), ("refresh 0", "0 0")]);
}

/// "A staged record at that maximum is Damaged."
#[test]
fn request_3_staged_at_the_last_count() {
    let record = line::record(&Record { replacements: TOP, ..staged() });
    let check = line::check(stamped(0, TOP));
    holds(&[(&record, ""), ("commit", "7"), ("recover 0", "7"), ("refresh 0", "7"), (&check, "7")]);
}
