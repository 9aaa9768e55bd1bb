//! Replaying an input log of 1,024 events: the proved function, linked from
//! crates/edge/out/libedge.a, beside the oracle's, linked as a library. Both
//! start from the record of the same opening, and write the answers to a slice
//! that is lent.
//!
//! Within Rust 1.63 and std alone: it is also built by Debian's rustc.

mod race;

use oracle::model::{Opening, Record};
use oracle::program;
use oracle::recording::{self, Recording};
use oracle::replay::{replay, Ended};
use std::hint::black_box;

/// Events of a log, and the seeds of the logs that are replayed in turn.
const EVENTS: u64 = 1024;
const SEEDS: [u64; 4] = [1, 2, 3, 4];

// Slices cross the boundary as an address and a length, in Rust as in Rattle.
#[allow(improper_ctypes)]
#[link(name = "edge", kind = "static")]
extern "C" {
    fn edge_replay(
        words: &[u64],
        revision: u64,
        serial: u64,
        replacements: u64,
        length: usize,
        answers: &mut [u64],
        most: usize,
    ) -> usize;
}

/// A log's words, and what is opened before it is replayed.
struct Log {
    words: Vec<u64>,
    opening: Opening,
    length: u64,
}

/// A replay of all events of a log: how many ran.
type Contender = (&'static str, fn(&Log, &mut [u64]) -> u64);

#[inline(never)]
fn by_oracle(log: &Log, answers: &mut [u64]) -> u64 {
    let mut record = Record::opened(log.opening, log.length);
    match replay(&log.words, 0, &mut record, answers, EVENTS) {
        Ended::Ran(ran) => ran,
        Ended::Bad(_) | Ended::Refused(_) => 0,
    }
}

fn by_proved(log: &Log, answers: &mut [u64]) -> u64 {
    let Opening { revision, serial, replacements } = log.opening;
    let length = log.length as usize;
    let most = EVENTS as usize;
    unsafe { edge_replay(&log.words, revision, serial, replacements, length, answers, most) as u64 }
}

const REPLAYS: [Contender; 2] = [("the oracle, in Rust", by_oracle), ("Rattle", by_proved)];

fn log(seed: u64) -> Log {
    let Recording { opening, length, bytes } = recording::sound(seed, EVENTS);
    let words = program::words_of(&bytes).expect("a log of whole words");
    Log { words, opening, length }
}

/// Both run all events and answer the same, or the program stops.
fn agree(logs: &[Log]) {
    for log in logs {
        let mut wanted = vec![0; EVENTS as usize];
        assert_eq!(by_oracle(log, &mut wanted), EVENTS);
        for (name, call) in REPLAYS {
            let mut answers = vec![0; EVENTS as usize];
            assert!(
                call(log, &mut answers) == EVENTS && answers == wanted,
                "{} does something else",
                name
            );
        }
    }
}

fn main() {
    let logs: Vec<Log> = SEEDS.into_iter().map(log).collect();
    agree(&logs);
    let names: Vec<&str> = REPLAYS.iter().map(|(name, _)| *name).collect();
    let mut answers = vec![0; EVENTS as usize];
    race::race(&format!("replay of {} events", EVENTS), &names, |at| {
        let mut turn = 0;
        race::time(|| {
            let log = &logs[turn % logs.len()];
            turn += 1;
            black_box(REPLAYS[at].1(black_box(log), black_box(&mut answers)));
        })
    });
}
