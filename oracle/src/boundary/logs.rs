//! The boundary pairs of the log: its sizes, its head and its room.
//!
//! Written from documents 01 and 02 and the page on the driver's script alone.

use super::records::{each_call, some_records};
use super::{without_log, Out};
use crate::line;
use crate::log;
use crate::model::{Claim, Record};
use crate::place::Place;
use crate::sizes::*;
use std::io;

pub(super) fn log_sizes(out: Out) -> io::Result<()> {
    writeln!(out, "# log sizes")?;
    let small = [1, LOG_HEAD - 1, LOG_HEAD, LOG_HEAD + 1].into_iter();
    let least = (LOG_LEAST - 1..=LOG_LEAST + EVENT).chain([log::words(3, EVENT)]);
    let most = [LOG_MOST - EVENT, LOG_MOST - 1, LOG_MOST, LOG_MOST + 1, LOG_MOST + EVENT];
    for words in small.chain(least).chain(most).chain([HELD_LOG]) {
        writeln!(out, "{}\n{}", line::lend(Place::Log, words), line::open_at(0, 0, "3:1"))?;
        let check = line::check(Claim::of(&Record::default(), 1));
        writeln!(out, "begin 2:5 2:9 0:0\nedit 1:1 1:1\nstamp 1\n{}", check)?;
        writeln!(out, "commit\nask-rollback\nshow")?;
        let long = format!("{}:1", AREA + 1);
        writeln!(out, "{}\nask-update\nshow", line::open_at(0, 0, &long))?;
    }
    order(out)
}

fn order(out: Out) -> io::Result<()> {
    writeln!(out, "# a wrong size comes before damage, and a log before its record")?;
    let damaged = Record { phase: 99, ..Record::default() };
    writeln!(out, "{}\ncommit", line::record(&damaged))?;
    writeln!(out, "{}\ncommit", line::lend(Place::Log, LOG_LEAST))?;
    writeln!(out, "{}\ncommit", line::lend(Place::Accepted, AREA - 1))?;
    writeln!(out, "recover-retained\nask-update\n{}", line::lend(Place::Accepted, AREA))?;
    without_log(out)
}

/// Heads of a log with room for two events, sound and not.
fn heads() -> Vec<[u64; LOG_HEAD as usize]> {
    let room = 2;
    let sound = log::head(0, room);
    let others = [
        (log::COUNT, vec![0, room, room + 1, TOP]),
        (log::FIRST, vec![LOG_HEAD - 1, LOG_HEAD + 1, 0]),
        (log::ROOM, vec![room - 1, room + 1, 0, room + (1 << 62), TOP]),
        (log::ZERO, vec![1, TOP]),
    ];
    let mut heads = Vec::new();
    for (at, words) in others {
        for word in words {
            let mut head = sound;
            head[at] = word;
            heads.push(head);
        }
    }
    heads
}

pub(super) fn log_heads(out: Out) -> io::Result<()> {
    writeln!(out, "# log heads\n{}", line::lend(Place::Log, log::words(2, EVENT)))?;
    for head in heads() {
        for record in some_records() {
            for call in each_call() {
                for (at, word) in (0..).zip(head) {
                    writeln!(out, "{}", line::put(Place::Log, at, word))?;
                }
                writeln!(out, "{}\n{}", line::record(&record), call)?;
            }
        }
        writeln!(out, "show")?;
    }
    without_log(out)
}

pub(super) fn log_room(out: Out) -> io::Result<()> {
    writeln!(out, "# logs that become full")?;
    for (room, left) in [(1, 1), (2, 1), (ROOM_MOST, 1), (ROOM_MOST, 2)] {
        writeln!(out, "{}", line::lend(Place::Log, log::words(room, EVENT)))?;
        writeln!(out, "{}", line::open_at(0, 0, "3:1"))?;
        writeln!(out, "{}", line::put(Place::Log, log::COUNT as u64, room - left))?;
        writeln!(out, "ask-structure\nask-structure\nshow\nask-rollback\nask-update")?;
        let long = AREA + 1;
        writeln!(out, "begin 2:5 2:9 0:0\nbegin {}:5 2:9 0:0", long)?;
        writeln!(out, "begin 2:5 {}:9 0:0\nbegin {}:5 {}:9 0:0", long, long, long)?;
        writeln!(out, "commit\nrefresh {}\nrefresh 5\nshow", long)?;
    }
    without_log(out)
}
