//! A small seeded generator (splitmix64) and the random numbers and payloads
//! that scripts are made of.
//!
//! Written from documents 01 and 02 and the page on the driver's script alone.

mod names;
mod records;

use crate::model::Opening;
use crate::sizes::*;

pub struct Dice(u64);

impl Dice {
    pub fn new(seed: u64) -> Dice {
        Dice(seed)
    }

    pub fn next(&mut self) -> u64 {
        self.0 = self.0.wrapping_add(0x9E37_79B9_7F4A_7C15);
        let mut z = self.0;
        z = (z ^ (z >> 30)).wrapping_mul(0xBF58_476D_1CE4_E5B9);
        z = (z ^ (z >> 27)).wrapping_mul(0x94D0_49BB_1331_11EB);
        z ^ (z >> 31)
    }

    /// A number below `limit`, which is not zero.
    pub fn below(&mut self, limit: u64) -> u64 {
        self.next() % limit
    }

    /// True `times` times in a hundred.
    pub fn chance(&mut self, times: u64) -> bool {
        self.below(100) < times
    }

    pub fn pick<T: Copy>(&mut self, list: &[T]) -> T {
        list[self.below(list.len() as u64) as usize]
    }

    /// A number that is small, near the top, or anything.
    pub fn any(&mut self) -> u64 {
        match self.below(6) {
            0 => TOP - self.below(3),
            1 => self.next(),
            _ => self.below(10),
        }
    }

    /// Another number: one more, one less, or with another bit.
    pub fn beside(&mut self, value: u64) -> u64 {
        match self.below(3) {
            0 => value.wrapping_add(1),
            1 => value.wrapping_sub(1),
            _ => value ^ (1 << self.below(64)),
        }
    }

    pub fn opening(&mut self) -> Opening {
        Opening { revision: self.any(), serial: self.any(), replacements: self.any() }
    }

    pub fn length(&mut self) -> u64 {
        match self.below(20) {
            0 | 1 => AREA,
            2 => AREA - 1,
            3 => self.below(AREA + 1),
            4 => 0,
            _ => self.below(24),
        }
    }

    /// A length of which some are too long.
    pub fn bold_length(&mut self) -> u64 {
        match self.below(24) {
            0 | 1 => AREA + 1,
            2 => HELD_AREA,
            _ => self.length(),
        }
    }

    pub fn payload(&mut self) -> String {
        let length = self.bold_length();
        self.seeded(length)
    }

    pub fn seeded(&mut self, length: u64) -> String {
        let seed = if self.chance(5) { SEED_MOST } else { self.below(SEED_MOST + 1) };
        format!("{}:{}", length, seed)
    }

    pub fn pairs(&mut self) -> String {
        let count = match self.below(24) {
            0 => TABLE,
            1 => TABLE + ACTION,
            2 => TABLE + 1,
            3 => TABLE - 1,
            4 => self.pick(&[HELD_TABLE, HELD_TABLE - 1, TABLE + 3, TABLE + 2 * ACTION]),
            5 => ACTION * self.below(MAX_ACTIONS + 1),
            6 => 1 + ACTION * self.below(3),
            7 => TABLE - ACTION,
            _ => ACTION * self.below(4),
        };
        self.seeded(count)
    }
}
