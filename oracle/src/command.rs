//! Reading a line as a command.
//!
//! Written from the page on the driver's script alone (and documents 01 and 02
//! for what the calls take). Decisions: a byte that is not ASCII outside a
//! comment makes a `?` line; no field of the record is narrower here than a u64.

mod calls;
pub mod words;

use crate::model::{Given, Record};
use crate::place::Place;
use crate::sizes::LINE_MOST;
use words::{number, numbers, payload, place, up_to, Words};

pub enum Command {
    Lend(Place, u64),
    Put(Place, usize, u64),
    Fill(Vec<u8>),
    Place(Record),
    /// The count of used tail records.
    Tails(u64),
    Make(Given),
    Show,
}

/// The command of a line that is neither empty nor a comment, if it is one.
pub fn command(line: &[u8]) -> Option<Command> {
    if line.len() as u64 > LINE_MOST {
        return None;
    }
    let words: Vec<&[u8]> = line.split(|byte| *byte == b' ').collect();
    Some(match (words[0], &words[1..]) {
        (b"lend", [name, size]) => {
            let place = place(name)?;
            Command::Lend(place, up_to(size, place.held())?)
        }
        (b"put", [name, index, value]) => put(place(name)?, index, value)?,
        (b"fill", [bytes]) => Command::Fill(payload(bytes)?),
        (b"record", row) => Command::Place(record(row)?),
        (b"tails", [count]) => Command::Tails(number(count)?),
        (b"show", []) => Command::Show,
        (name, rest) => Command::Make(calls::given(name, rest)?),
    })
}

fn put(place: Place, index: &[u8], value: &[u8]) -> Option<Command> {
    let index = up_to(index, place.held() - 1)? as usize;
    Some(Command::Put(place, index, up_to(value, place.most())?))
}

fn record(words: Words) -> Option<Record> {
    Record::of_row(numbers(words)?)
}
