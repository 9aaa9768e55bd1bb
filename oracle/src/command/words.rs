//! Reading a word: numbers, flags, places, payloads and pairs.
//!
//! Written from the page on the driver's script alone.

use crate::place::Place;
use crate::sizes::{HELD_AREA, HELD_TABLE, SEED_MOST};

/// Byte i of a payload is the seed plus i, modulo this.
const PERIOD: u64 = 251;

pub(super) type Words<'a> = &'a [&'a [u8]];

pub(super) fn place(word: &[u8]) -> Option<Place> {
    Place::of_letter(word)
}

/// One or more digits, leading zeros allowed, up to the u64 maximum.
pub fn number(word: &[u8]) -> Option<u64> {
    if word.is_empty() {
        return None;
    }
    let mut value: u64 = 0;
    for byte in word {
        if !byte.is_ascii_digit() {
            return None;
        }
        value = value.checked_mul(10)?.checked_add(u64::from(byte - b'0'))?;
    }
    Some(value)
}

/// Just so many numbers, a word each.
pub(super) fn numbers<const COUNT: usize>(words: Words) -> Option<[u64; COUNT]> {
    let values: Option<Vec<u64>> = words.iter().map(|word| number(word)).collect();
    values?.try_into().ok()
}

pub(super) fn up_to(word: &[u8], most: u64) -> Option<u64> {
    number(word).filter(|value| *value <= most)
}

pub(super) fn flag(word: &[u8]) -> Option<bool> {
    up_to(word, 1).map(|value| value == 1)
}

/// Two numbers parted by one colon: so many, and a seed.
fn seeded(word: &[u8], most: u64) -> Option<(u64, u64)> {
    let colon = word.iter().position(|byte| *byte == b':')?;
    Some((up_to(&word[..colon], most)?, up_to(&word[colon + 1..], SEED_MOST)?))
}

pub(super) fn payload(word: &[u8]) -> Option<Vec<u8>> {
    let (length, seed) = seeded(word, HELD_AREA)?;
    Some((0..length).map(|i| ((seed + i) % PERIOD) as u8).collect())
}

pub(super) fn pairs(word: &[u8]) -> Option<Vec<u64>> {
    let (count, seed) = seeded(word, HELD_TABLE)?;
    Some((seed..seed + count).collect())
}
