//! Random recordings as they might come: with bad events, with words past the
//! count, with a head that is not sound, or of a wrong size.
//!
//! Written from documents 01 and 02 and the page on the driver's script alone.

use super::maker::Maker;
use super::{bad, bytes, log_of, Recording};
use crate::dice::Dice;
use crate::input::Event;
use crate::log;
use crate::model::Record;
use crate::sizes::{AREA, LOG_HEAD, ROOM_MOST, TOP};

pub(super) fn seeded(seed: u64) -> Recording {
    let mut maker = Maker::new(seed);
    let opening = maker.opening();
    let length = match maker.dice.below(60) {
        0 => maker.dice.pick(&[AREA + 1, AREA + 2, 1 << 32, TOP]),
        1 | 2 => AREA,
        _ => maker.dice.length(),
    };
    maker.record = Record::opened(opening, length.min(AREA));
    let count = count(&mut maker.dice);
    let mut events = maker.events(count);
    let dice = &mut maker.dice;
    spoil(dice, &mut events);
    let room = room(dice, count);
    let bad = bad::all();
    let past = (count..room).map(|_| past(dice, &events, &bad)).collect::<Vec<_>>();
    let mut words = log_of(count, room, &[events, past].concat());
    if dice.chance(3) {
        break_head(dice, &mut words, room);
    }
    let mut bytes = bytes(&words);
    if dice.chance(3) {
        resize(dice, &mut bytes);
    }
    Recording { opening, length, bytes }
}

fn count(dice: &mut Dice) -> u64 {
    match dice.below(20) {
        0..=8 => ROOM_MOST,
        9..=17 => 1 + dice.below(ROOM_MOST),
        _ => dice.below(8),
    }
}

/// As much room as there are events, or more.
fn room(dice: &mut Dice, count: u64) -> u64 {
    if dice.chance(50) {
        count.max(1)
    } else {
        count.max(1) + dice.below(ROOM_MOST - count.max(1) + 1)
    }
}

/// What stands past the count: a bad event, anything, nothing or an event.
fn past(dice: &mut Dice, events: &[Event], bad: &[Event]) -> Event {
    match dice.below(4) {
        0 => dice.pick(bad),
        1 => Event::default().map(|_| dice.next()),
        2 if !events.is_empty() => dice.pick(events),
        _ => Event::default(),
    }
}

/// Makes one event bad at times: mostly the last, else the first or any.
fn spoil(dice: &mut Dice, events: &mut [Event]) {
    let count = events.len() as u64;
    if count == 0 {
        return;
    }
    let at = match dice.below(100) {
        0..=14 => count - 1,
        15..=19 => dice.below(count),
        20 | 21 => 0,
        _ => return,
    };
    events[at as usize] = dice.pick(&bad::all());
}

/// Gives one word of the head another number.
fn break_head(dice: &mut Dice, words: &mut [u64], room: u64) {
    let (at, word) = match dice.below(5) {
        0 => (log::COUNT, room + 1),
        1 => (log::COUNT, TOP),
        2 => (log::FIRST, dice.pick(&[0, LOG_HEAD - 1, LOG_HEAD + 1, 2 * LOG_HEAD, TOP])),
        3 => (log::ROOM, dice.pick(&[0, room - 1, room + 1, 2 * room, TOP, room + (1 << 61)])),
        _ => (log::ZERO, dice.pick(&[1, LOG_HEAD, TOP])),
    };
    words[at] = word;
}

/// Takes bytes away or adds some.
fn resize(dice: &mut Dice, bytes: &mut Vec<u8>) {
    let moved = dice.pick(&[1, 4, 7, 8, 16, 32, 56, 64]);
    let size =
        if dice.chance(50) { bytes.len() + moved } else { bytes.len().saturating_sub(moved) };
    bytes.resize(size, 0);
}
