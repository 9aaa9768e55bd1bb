//! The fixed recordings on sizes, heads, rooms and openings.
//!
//! Written from documents 01 and 02 and the page on the driver's script alone.

use super::{named, some_events, Named};
use crate::input::Event;
use crate::log;
use crate::model::Opening;
use crate::recording::{bad, bytes, full, log_of, maker, Recording};
use crate::sizes::{
    AREA, FILE_MOST, INPUT_EVENT, INPUT_MOST, LOG_HEAD, ROOM_MOST, TOP, WORD_BYTES,
};

/// Words about the fewest and the most of a log, with a head that fits the room
/// if any does.
pub(super) fn sizes() -> Vec<Named> {
    let small = (0..=30).chain([36, 100, 108]);
    let large = INPUT_MOST - INPUT_EVENT..=INPUT_MOST + INPUT_EVENT;
    let events = some_events(ROOM_MOST);
    let of_size = |size: u64| {
        let room = log::room(size, INPUT_EVENT);
        let count = room.min(ROOM_MOST);
        let mut words = log_of(count, room, &events[..count as usize]);
        words.resize(size as usize, 0);
        named(format!("{} words", size), &words)
    };
    small.chain(large).map(of_size).collect()
}

/// Files that end within a word, and those about the most bytes.
pub(super) fn cut_words() -> Vec<Named> {
    let words = full(&some_events(2));
    let within = (bytes(&words).len() as u64 - WORD_BYTES..).take(2 * WORD_BYTES as usize);
    let most = [FILE_MOST - 1, FILE_MOST, FILE_MOST + 1, FILE_MOST + WORD_BYTES, 2 * FILE_MOST];
    let few = 1..WORD_BYTES;
    let of_bytes = |size: u64| {
        let (_, mut recording) = named(String::new(), &words);
        recording.bytes.resize(size as usize, 0);
        (format!("{} bytes", size), recording)
    };
    few.chain(within).chain(most).map(of_bytes).collect()
}

/// Each word of a head another one, over a log of two events.
pub(super) fn heads() -> Vec<Named> {
    let room = 2;
    let wrong = [
        (log::COUNT, vec![room + 1, 1 << 32, (1 << 32) + 1, 1 << 63, TOP]),
        (log::FIRST, vec![0, LOG_HEAD - 1, LOG_HEAD + 1, 2 * LOG_HEAD, (1 << 32) + LOG_HEAD, TOP]),
        (log::ROOM, vec![0, room - 1, room + 1, room + (1 << 32), room + (1 << 61), TOP]),
        (log::ZERO, vec![1, 1 << 32, 1 << 63, TOP]),
    ];
    let mut all = Vec::new();
    for (at, words) in wrong {
        for word in words {
            for count in 0..=room {
                let mut log = log_of(count, room, &some_events(room));
                log[at] = word;
                all.push(named(format!("head word {} is {}, count {}", at, word, count), &log));
            }
        }
    }
    all
}

/// Rooms full, half full and empty, with bad events past the count.
pub(super) fn rooms() -> Vec<Named> {
    let events = some_events(ROOM_MOST);
    let bad = bad::all();
    let mut all = Vec::new();
    for room in [1, 2, 3, 7, 8, 63, 64, 65, 255, 256, 257, 511, 512, 1023, 1024] {
        for count in [0, 1, room / 2, room - 1, room] {
            let past = bad.iter().cycle().take((room - count) as usize).copied();
            let filled: Vec<Event> = events[..count as usize].iter().copied().chain(past).collect();
            all.push(named(
                format!("count {} of room {}", count, room),
                &log_of(count, room, &filled),
            ));
        }
    }
    all
}

/// Openings at the maxima and just below, and payloads about the longest; over
/// events that follow the rules from there, and over logs that are refused.
pub(super) fn openings() -> Vec<Named> {
    let numbers = [0, 1, TOP - 1, TOP];
    let mut all = Vec::new();
    for revision in numbers {
        for serial in [0, TOP - 2, TOP - 1, TOP] {
            for replacements in numbers {
                let opening = Opening { revision, serial, replacements };
                let events = maker::followed(all.len() as u64, opening, 0, 100);
                all.push(opened(opening, 0, &full(&events)));
            }
        }
    }
    let sound = full(&maker::followed(0, super::OPENING, AREA, 100));
    let (broken, cut) = (log_of(3, 2, &[]), sound[1..].to_vec());
    for length in [AREA - 1, AREA, AREA + 1, 1 << 32, (1 << 32) + 1, 1 << 63, TOP] {
        all.extend([&sound, &broken, &cut].map(|words| opened(super::OPENING, length, words)));
    }
    all
}

fn opened(opening: Opening, length: u64, words: &[u64]) -> Named {
    let recording = Recording { opening, length, bytes: bytes(words) };
    (format!("opening {}", recording.numbers()), recording)
}
