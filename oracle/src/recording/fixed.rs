//! The fixed recordings: sizes, heads, rooms, openings, numbers in events, and
//! every sort of bad event at the first, a middle and the last place.
//!
//! Written from documents 01 and 02 and the page on the driver's script alone.

mod events;
mod logs;

use super::{bytes, maker, Recording};
use crate::input::Event;
use crate::model::Opening;

/// What most of them are meant for.
const OPENING: Opening = Opening { revision: 7, serial: 40, replacements: 2 };
const LENGTH: u64 = 300;

/// A recording with what it is about.
pub type Named = (String, Recording);

pub fn all() -> Vec<Named> {
    let mut all = logs::sizes();
    all.extend(logs::cut_words());
    all.extend(logs::heads());
    all.extend(logs::rooms());
    all.extend(logs::openings());
    all.extend(events::large_numbers());
    all.extend(events::bad_ones());
    all
}

/// A file of these words for that opening.
fn named(name: String, words: &[u64]) -> Named {
    (name, Recording { opening: OPENING, length: LENGTH, bytes: bytes(words) })
}

/// So many events for it, most of them following the rules.
fn some_events(count: u64) -> Vec<Event> {
    maker::followed(0, OPENING, LENGTH, count)
}
