//! Episodes of a made script: chains, and records put in place, whole,
//! damaged, at the last revision or count of replacements and at the last
//! serials.
//!
//! Written from documents 01 and 02 and the page on the driver's script alone.

use super::Maker;
use crate::line;
use crate::model::{Name, Record, Ticket};
use crate::place::Place;
use crate::sizes::{AREA, HELD_AREA, HELD_TABLE, TABLE, TOP};
use std::io;

impl Maker<'_> {
    pub(super) fn opening(&mut self) -> String {
        let opening = self.dice.opening();
        line::open(opening, &self.dice.payload())
    }

    pub(super) fn open(&mut self) -> io::Result<()> {
        let line = self.opening();
        self.say(&line)
    }

    /// A chain from an opening, with or without a log.
    pub(super) fn chain(&mut self) -> io::Result<()> {
        let log = match self.dice.below(10) {
            0..=3 => 0,
            4 => self.wrong_log(),
            _ => self.right_log(),
        };
        self.lend(Place::Log, log)?;
        self.open()?;
        let count = 5 + self.dice.below(60);
        self.run(count)
    }

    pub(super) fn place(&mut self, record: &Record) -> io::Result<()> {
        self.say(&line::record(record))
    }

    /// A whole record put in place, then a few calls.
    pub(super) fn placed(&mut self) -> io::Result<()> {
        let record = self.dice.whole_record();
        self.place(&record)?;
        let count = 1 + self.dice.below(8);
        self.run(count)
    }

    /// A record with one or two fields changed.
    pub(super) fn damaged(&mut self) -> io::Result<()> {
        for _ in 0..1 + self.dice.below(4) {
            let mut record = self.dice.whole_record();
            self.dice.mutate(&mut record);
            if self.dice.chance(30) {
                self.dice.mutate(&mut record);
            }
            self.place(&record)?;
            for _ in 0..1 + self.dice.below(4) {
                let line = self.any_call();
                self.say(&line)?;
            }
        }
        let record = self.dice.whole_record();
        self.place(&record)
    }

    /// A wrong size for a place.
    fn wrong(&mut self, place: Place) -> u64 {
        match place {
            Place::Table => {
                self.dice.pick(&[0, 1, TABLE - 2, TABLE - 1, TABLE + 1, TABLE + 2, HELD_TABLE])
            }
            Place::Log => self.wrong_log(),
            _ => self.dice.pick(&[0, 1, AREA - 1, AREA + 1, HELD_AREA]),
        }
    }

    /// One thing lent in a wrong size, maybe with a damaged record or log, and
    /// at times surely without a log.
    pub(super) fn wrong_size(&mut self) -> io::Result<()> {
        if self.dice.chance(30) {
            self.lend(Place::Log, 0)?;
        }
        let mut record = self.dice.whole_record();
        if self.dice.chance(25) {
            self.dice.mutate(&mut record);
        }
        self.place(&record)?;
        let place = self.dice.pick(&[Place::of_transaction(), &[Place::Log]].concat());
        let size = self.wrong(place);
        self.lend(place, size)?;
        if self.dice.chance(20) {
            self.open()?;
        }
        for _ in 0..3 + self.dice.below(10) {
            let line = if self.dice.chance(40) { self.sensible() } else { self.any_call() };
            self.say(&line)?;
        }
        if place == Place::Log {
            let log = if self.dice.chance(50) { 0 } else { self.right_log() };
            self.lend(Place::Log, log)?;
            self.open()?;
        }
        Ok(())
    }

    /// Idle or staged at and just below the highest revision, the highest count
    /// of replacements or both.
    pub(super) fn maxima(&mut self) -> io::Result<()> {
        let mut record = self.dice.whole_record();
        if self.dice.chance(50) {
            record = Record::opened(self.dice.opening(), self.dice.length());
        }
        let last = TOP - u64::from(record.staged);
        let (revision, count) = self.dice.pick(&[(true, false), (false, true), (true, true)]);
        record.revision = if revision { last } else { record.revision.min(last - 1) };
        record.replacements = if count { last } else { record.replacements.min(last - 1) };
        self.place(&record)?;
        let name = self.dice.pick(&[Name::Begin, Name::BeginStructural, Name::Refresh]);
        let line = self.line_of(name);
        self.say(&line)?;
        let count = 2 + self.dice.below(5);
        self.run(count)
    }

    /// The last serials, one after the other.
    pub(super) fn nearly_worn(&mut self) -> io::Result<()> {
        let mut record = self.dice.whole_record();
        record.serial = TOP - self.dice.below(3);
        record.live = record.live.map(|live| Ticket { number: record.serial, ..live });
        self.place(&record)?;
        let count = 3 + self.dice.below(6);
        self.run(count)
    }
}
