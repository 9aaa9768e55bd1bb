//! Episodes of the tail table: what is lent of it, its count and its records,
//! right and wrong, and calls on them with stamps that pass and do not.
//!
//! Written from documents 01 and 02 and the page on the driver's script alone.

use super::Maker;
use crate::line;
use crate::model::{Claim, File, Name, Record, Tail, Task};
use crate::place::Place;
use crate::sizes::{HELD_TAILS, TAIL, TAILS_MOST, TOP};
use crate::tails::{records, sound, Saved};
use std::collections::BTreeSet;
use std::io;

/// The most records that a small table has room for, and that an episode puts
/// in a large one.
const FEW: u64 = 4;
const MANY: u64 = 40;

/// The calls on the table that take a stamp.
pub(super) const STAMPED: [Name; 4] =
    [Name::FindTail, Name::MoveTail, Name::FindStruct, Name::MoveStruct];

impl Maker<'_> {
    pub(super) fn tails(&mut self) -> io::Result<()> {
        let record = self.record_beside_tails();
        self.place(&record)?;
        let words = self.tail_words();
        self.lend(Place::Tails, words)?;
        self.put_tails()?;
        for _ in 0..4 + self.dice.below(16) {
            if self.dice.chance(8) {
                self.stir_tails()?;
            }
            let line = self.any_tail_call();
            self.say(&line)?;
        }
        Ok(())
    }

    /// Takes no record as used where the whole table is not sound.
    pub(super) fn right_tails(&mut self) -> io::Result<()> {
        let driver = &self.player.driver;
        if sound(&driver.tails[..TAILS_MOST as usize], driver.used) {
            return Ok(());
        }
        self.say(&line::tails(0))
    }

    /// Mostly an idle record: in no other does a stamp pass.
    fn record_beside_tails(&mut self) -> Record {
        if self.dice.chance(70) {
            return Record::opened(self.dice.opening(), 0);
        }
        let mut record = self.dice.whole_record();
        if self.dice.chance(50) {
            self.dice.mutate(&mut record);
        }
        record
    }

    fn tail_words(&mut self) -> u64 {
        match self.dice.below(12) {
            0 => self.dice.pick(&[TAILS_MOST + 1, TAILS_MOST + TAIL, HELD_TAILS - 2, HELD_TAILS]),
            1 => self.dice.pick(&[1, 2, TAIL + 1, 2 * TAIL + 2, TAILS_MOST - 1]),
            2 => 0,
            3 => TAILS_MOST,
            _ => TAIL * (1 + self.dice.below(FEW)),
        }
    }

    /// Records in their order, and mostly their count.
    fn put_tails(&mut self) -> io::Result<()> {
        let room = self.tail_room();
        let wanted = self.dice.below(room.min(MANY) + 1);
        let files: BTreeSet<File> = (0..wanted).map(|_| self.any_file()).collect();
        for (at, file) in (0..).zip(&files) {
            let saved = Saved { file: *file, offset: self.dice.any() };
            for (word, value) in (at * TAIL..).zip(saved.words()) {
                self.put(Place::Tails, word, value)?;
            }
        }
        let count = if self.dice.chance(90) { files.len() as u64 } else { self.wild_used() };
        self.say(&line::tails(count))
    }

    /// How many records there is room for.
    fn tail_room(&self) -> u64 {
        self.lent(Place::Tails) / TAIL
    }

    /// A count at the room or past it; with some, three times as many are few
    /// again in 64 bits.
    fn wild_used(&mut self) -> u64 {
        let (room, third) = (self.tail_room(), TOP / TAIL);
        self.dice.pick(&[room, room + 1, 1 << 32, third + 1, 2 * third + 1, TOP])
    }

    /// The count becomes another, or one word does of the used records or of
    /// the two after them.
    fn stir_tails(&mut self) -> io::Result<()> {
        if self.dice.chance(20) {
            let count = if self.dice.chance(50) { 0 } else { self.wild_used() };
            return self.say(&line::tails(count));
        }
        let near = (self.player.driver.used.min(self.tail_room()) + 2) * TAIL;
        let (word, value) = (self.dice.below(near.min(HELD_TAILS)), self.file_number());
        self.put(Place::Tails, word, value)
    }

    /// Few numbers and the largest, so that devices and inodes agree often.
    fn file_number(&mut self) -> u64 {
        match self.dice.below(8) {
            0 => TOP,
            1 => self.dice.any(),
            _ => self.dice.below(3),
        }
    }

    fn any_file(&mut self) -> File {
        File { device: self.file_number(), inode: self.file_number() }
    }

    /// One of the used records if there are any, else any.
    fn some_saved(&mut self) -> Saved {
        let driver = &self.player.driver;
        let mut used = records(&driver.tails[..self.lent(Place::Tails) as usize]);
        used.truncate(driver.used.min(self.tail_room()) as usize);
        if used.is_empty() || self.dice.chance(30) {
            return Saved { file: self.any_file(), offset: self.dice.any() };
        }
        self.dice.pick(&used)
    }

    fn any_tail_call(&mut self) -> String {
        let changing = [Name::AddTail, Name::AddTail, Name::RemoveTail];
        let name =
            if self.dice.chance(40) { self.dice.pick(&changing) } else { self.dice.pick(&STAMPED) };
        self.tail_call(name)
    }

    /// A call of this name on the tail table, with a stamp where it takes one.
    pub(super) fn tail_call(&mut self, name: Name) -> String {
        let claim = self.tail_claim();
        self.tail_call_with(name, claim)
    }

    /// But for adding it is mostly on a file that stands in the table, with a
    /// number that is about the saved offset.
    pub(super) fn tail_call_with(&mut self, name: Name, claim: Claim) -> String {
        let Saved { file, offset } = self.some_saved();
        let number = match self.dice.below(7) {
            0 | 1 => offset.saturating_sub(1),
            2 | 3 => offset,
            4 | 5 => offset.saturating_add(1),
            _ => self.dice.any(),
        };
        let structs = matches!(name, Name::FindStruct | Name::MoveStruct);
        let task = match name {
            Name::AddTail => Task::Add { offset: number },
            Name::RemoveTail => Task::Remove,
            Name::FindTail | Name::FindStruct => Task::Find { structs, size: number, claim },
            _ => Task::Move { structs, offset: number, claim },
        };
        let other = name == Name::AddTail && self.dice.chance(70);
        line::tail(Tail { file: if other { self.any_file() } else { file }, task })
    }
}
