//! What the short script reaches.

use crate::place::Place;
use crate::reach::{kind, kinds, reach};
use crate::script::{Player, Reply};
use std::collections::BTreeSet;

/// So many bytes the short script has at most.
const SHORT: usize = 30_000;

#[test]
fn the_short_script_reaches_every_kind() {
    let mut script = Vec::new();
    reach(&mut script).expect("printing into memory");
    assert!(script.len() <= SHORT, "{} bytes", script.len());
    let mut player = Player::new();
    let mut reached = BTreeSet::new();
    for line in script.strip_suffix(b"\n").expect("a line").split(|byte| *byte == b'\n') {
        let lent = player.driver.lent(Place::Log) > 0;
        match player.hear(line) {
            Reply::Answered(made) => drop(reached.insert(kind(&made, lent))),
            Reply::Bad(number) => panic!("line {} is no command", number),
            Reply::Nothing | Reply::Shown(_) => {}
        }
    }
    assert_eq!(reached, kinds());
}

/// Every cell of the table, twice where the call goes through a log, but for
/// a full log and for asks, which are lent nothing else, without one; those of
/// Capacity three times for begins and twice for refresh.
#[test]
fn the_kinds_are_those_of_the_table() {
    let kinds = kinds();
    let logged = kinds.iter().filter(|kind| kind.2).count();
    assert_eq!((logged, kinds.len() - logged), (98, 140));
}
