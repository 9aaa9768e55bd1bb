//! Changing what the driver holds: by hand, and as a step says.
//!
//! Written from documents 01 and 02 and the page on the driver's script alone.

use super::Driver;
use crate::model::Write;
use crate::place::Place;
use crate::sizes::AREA;

impl Driver {
    pub(super) fn put(&mut self, place: Place, index: usize, value: u64) {
        match place {
            Place::Table => self.table[index] = value,
            Place::Log => self.log[index] = value,
            Place::Groups => self.groups[index] = value as u8,
            Place::Status => self.status[index] = value as u8,
            Place::Tails => self.tails[index] = value,
            area => self.areas[area as usize][index] = value as u8,
        }
    }

    /// Writes bytes to the front of an area.
    pub(super) fn fill(&mut self, area: Place, bytes: &[u8]) {
        self.areas[area as usize][..bytes.len()].copy_from_slice(bytes);
    }

    pub(super) fn write(&mut self, writes: &[Write]) {
        for write in writes {
            match write {
                Write::Bytes(place, bytes) => self.fill(*place, bytes),
                Write::Words(words) => self.table[..words.len()].copy_from_slice(words),
                Write::Word(index, value) => self.table[*index as usize] = *value,
                Write::Swap(one, other) => self.swap(*one, *other),
                Write::Copy { from, to } => {
                    for i in 0..AREA as usize {
                        self.areas[*to as usize][i] = self.areas[*from as usize][i];
                    }
                }
            }
        }
    }

    fn swap(&mut self, one: Place, other: Place) {
        for i in 0..AREA as usize {
            let kept = self.areas[one as usize][i];
            self.areas[one as usize][i] = self.areas[other as usize][i];
            self.areas[other as usize][i] = kept;
        }
    }
}
