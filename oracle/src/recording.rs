//! Recordings: input logs, each with the opening that it is meant for.
//!
//! Written from documents 01 and 02 alone.

pub mod bad;
mod example;
pub mod fixed;
mod maker;
mod spoilt;
mod story;
mod tour;

pub use example::example;
pub use tour::tour;

use crate::input::{Event, KIND};
use crate::log;
use crate::model::{Name, Opening};
use crate::program::Told;
use crate::sizes::{INPUT_EVENT, PORTION, ROOM_MOST};

/// The most events of a recording.
pub const EVENTS_MOST: u64 = ROOM_MOST;

/// What a file holds, and what is opened before it is replayed.
#[derive(Clone, Debug, PartialEq, Eq)]
pub struct Recording {
    pub opening: Opening,
    pub length: u64,
    pub bytes: Vec<u8>,
}

impl Recording {
    pub fn told(&self) -> Told {
        Told { opening: self.opening, length: self.length, portion: PORTION }
    }

    /// The numbers of its opening and of its payload's length, for a command.
    pub fn words(&self) -> Vec<String> {
        let numbers = self.told().numbers();
        numbers[..=Opening::WORDS].iter().map(|number| number.to_string()).collect()
    }

    pub fn numbers(&self) -> String {
        self.words().join(" ")
    }
}

/// A random recording, which may be refused, have bad events, or have words past
/// its count.
pub fn seeded(seed: u64) -> Recording {
    spoilt::seeded(seed)
}

/// A random recording of so many events, which are all run.
pub fn sound(seed: u64, events: u64) -> Recording {
    let (opening, length, events) = maker::sound(seed, events);
    Recording { opening, length, bytes: bytes(&full(&events)) }
}

/// An event of a call with these words, the others being zero.
pub fn event(name: Name, words: &[(usize, u64)]) -> Event {
    let mut event = Event::default();
    event[KIND] = name.about().kind.expect("a recorded call");
    for (at, word) in words {
        event[*at] = *word;
    }
    event
}

/// A log of these events with this room and this count.
pub fn log_of(count: u64, room: u64, events: &[Event]) -> Vec<u64> {
    let mut words = log::head(count, room).to_vec();
    words.extend(events.concat());
    words.resize(log::words(room, INPUT_EVENT) as usize, 0);
    words
}

/// A log that these events fill; without any it has room for one.
pub fn full(events: &[Event]) -> Vec<u64> {
    let count = events.len() as u64;
    log_of(count, count.max(1), events)
}

/// Words as a file holds them.
pub fn bytes(words: &[u64]) -> Vec<u8> {
    words.iter().flat_map(|word| word.to_le_bytes()).collect()
}
