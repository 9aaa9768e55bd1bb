//! Episodes of status calls over group and status bytes.
//!
//! Written from document 01 and the page on the driver's script alone.

use super::Maker;
use crate::model::Name;
use crate::place::Place;
use crate::sizes::{BYTE_MOST, HELD_IDS, IDS_MOST, LENT_IDS};
use crate::status::{GROUP_BITS, LINKED, LIVE, READY, STATUS_BITS};
use std::io;

impl Maker<'_> {
    pub(super) fn status(&mut self) -> io::Result<()> {
        let lent = [LENT_IDS, LENT_IDS, LENT_IDS, 1, 2, IDS_MOST - 1, IDS_MOST, IDS_MOST + 1];
        let others = [0, HELD_IDS, LENT_IDS - 1, LENT_IDS + 1];
        let groups = self.dice.pick(&[&lent[..], &others].concat());
        let status = if self.dice.chance(80) { groups } else { self.dice.below(HELD_IDS + 1) };
        self.lend(Place::Groups, groups)?;
        self.lend(Place::Status, status)?;
        for _ in 0..4 + self.dice.below(20) {
            let id = self.id();
            if self.dice.chance(60) && id < HELD_IDS {
                self.put_status(id)?;
            }
            let line = self.status_call(id);
            self.say(&line)?;
        }
        Ok(())
    }

    fn put_status(&mut self, id: u64) -> io::Result<()> {
        let (group, status) = (self.group_byte(), self.status_byte());
        self.put(Place::Groups, id, group)?;
        self.put(Place::Status, id, status)
    }

    fn group_byte(&mut self) -> u64 {
        let [bits, live, ready] = [GROUP_BITS, LIVE, READY].map(u64::from);
        let over = bits + 1;
        match self.dice.below(10) {
            0 => self.dice.pick(&[over, over | live, over | ready, 2 * over, BYTE_MOST]),
            1..=4 => ready,
            _ => self.dice.below(over),
        }
    }

    fn status_byte(&mut self) -> u64 {
        let [bits, linked] = [STATUS_BITS, LINKED].map(u64::from);
        let (over, others) = (bits + 1, bits / 2 + 1);
        match self.dice.below(10) {
            0 => self.dice.pick(&[over, over | linked, over | bits, BYTE_MOST]),
            1 => 2 * self.dice.below(others),
            2 | 3 => 0,
            _ => linked + 2 * self.dice.below(others),
        }
    }

    pub(super) fn id(&mut self) -> u64 {
        let length = self.lent(Place::Groups);
        match self.dice.below(12) {
            0 => 0,
            1 => length,
            2 => length + 1,
            3 => self.dice.any(),
            4 => length.saturating_sub(1),
            _ => 1 + self.dice.below(length.max(2) - 1),
        }
    }

    pub(super) fn status_call(&mut self, id: u64) -> String {
        match self.dice.pick(&[Name::Link, Name::Initialize, Name::Cancel]) {
            Name::Link => format!("link {} {}", id, u64::from(self.dice.chance(85))),
            name => format!("{} {}", name.word(), id),
        }
    }
}
