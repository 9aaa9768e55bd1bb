//! How a script on which two sides differ is made small.

use crate::compare::shrink::smallest;

/// A stand-in for two sides: they differ where a script commits after a
/// refresh of more than forty bytes.
fn differs(script: &[u8]) -> bool {
    let text = String::from_utf8_lossy(script).into_owned();
    let mut refreshed = false;
    for line in text.lines() {
        if let Some(length) = line.strip_prefix("refresh ") {
            refreshed |= length.parse().map_or(false, |length: u64| length > 40);
        }
        if refreshed && line == "commit" {
            return true;
        }
    }
    false
}

#[test]
fn lines_go_and_numbers_fall() {
    let mut script = String::new();
    for i in 0..50 {
        script.push_str(&format!("stamp {}\nrefresh {}\nshow\ncommit\n", i, i * 7));
    }
    let mut tried = 0;
    let (small, tries) = smallest(script.as_bytes(), None, &mut |script| {
        tried += 1;
        Ok(differs(script))
    })
    .expect("no program is started");
    assert_eq!(String::from_utf8_lossy(&small), "refresh 41\ncommit\n");
    assert_eq!(tries, tried);
}

#[test]
fn a_missing_newline_is_kept_where_it_matters() {
    let script = b"stamp 1\nstamp 2\nshow";
    let mut differs = |script: &[u8]| Ok(!script.ends_with(b"\n"));
    let (small, _) = smallest(script, None, &mut differs).expect("no program is started");
    assert!(!small.ends_with(b"\n"));
}
