//! Episodes with a log: lengths right and wrong, full logs, broken heads.
//!
//! Written from document 01 and the page on the driver's script alone.

use super::Maker;
use crate::log;
use crate::place::Place;
use crate::sizes::{EVENT, HELD_LOG, LOG_HEAD, LOG_LEAST, LOG_MOST, ROOM_MOST, TOP};
use std::io;

impl Maker<'_> {
    pub(super) fn right_log(&mut self) -> u64 {
        match self.dice.below(8) {
            0 => LOG_LEAST,
            1 => LOG_LEAST + EVENT,
            2 => LOG_MOST,
            3 => log::words(1 + self.dice.below(ROOM_MOST), EVENT),
            _ => log::words(1 + self.dice.below(40), EVENT),
        }
    }

    pub(super) fn wrong_log(&mut self) -> u64 {
        let about_least = [LOG_LEAST - 1, LOG_LEAST + 1, LOG_LEAST + 2, LOG_LEAST + 3];
        let about_most = [LOG_MOST - 1, LOG_MOST + 1, LOG_MOST + EVENT, LOG_MOST + 2];
        let short = [&[1, LOG_HEAD][..], &about_least, &[LOG_LEAST + EVENT + 1]].concat();
        self.dice.pick(&[&short[..], &about_most, &[HELD_LOG]].concat())
    }

    /// A log with a sound head and room for `left` more events.
    fn sound_log(&mut self, left: u64) -> io::Result<()> {
        let length = self.right_log();
        let room = log::room(length, EVENT);
        self.lend(Place::Log, length)?;
        for (at, word) in (0..).zip(log::head(room.saturating_sub(left), room)) {
            self.put(Place::Log, at, word)?;
        }
        Ok(())
    }

    pub(super) fn full_log(&mut self) -> io::Result<()> {
        let left = self.dice.below(3);
        self.sound_log(left)?;
        for _ in 0..2 + self.dice.below(6) {
            let record = self.dice.whole_record();
            self.place(&record)?;
            let count = 1 + self.dice.below(4);
            self.run(count)?;
        }
        if self.dice.chance(70) {
            self.lend(Place::Log, 0)?;
        }
        Ok(())
    }

    pub(super) fn broken_head(&mut self) -> io::Result<()> {
        self.sound_log(1)?;
        let room = log::room(self.lent(Place::Log), EVENT);
        let (at, value) = match self.dice.below(6) {
            0 => (log::COUNT, room + 1),
            1 => (log::COUNT, TOP),
            2 => (log::FIRST, self.dice.pick(&[0, LOG_HEAD - 1, LOG_HEAD + 1, TOP])),
            3 => (log::ROOM, self.dice.pick(&[0, room - 1, room + 1, TOP, room + (1 << 62)])),
            4 => (log::ZERO, self.dice.pick(&[1, 4, TOP])),
            _ => (log::COUNT, room),
        };
        self.put(Place::Log, at as u64, value)?;
        for _ in 0..4 {
            let record = self.dice.whole_record();
            self.place(&record)?;
            self.run(2)?;
        }
        if self.dice.chance(60) {
            self.lend(Place::Log, 0)
        } else {
            self.open()
        }
    }
}
