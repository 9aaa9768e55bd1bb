//! What is written of an answer and of what the driver holds.
//!
//! Written from the page on the driver's script alone.

use crate::answer::Answered;
use crate::driver::Driver;
use crate::line::{self, join};

/// The lines of `show`.
pub fn shown(driver: &Driver) -> Vec<String> {
    let bytes: Vec<u64> = driver.areas.iter().map(|area| of_bytes(area)).collect();
    vec![
        line::record(&driver.record),
        format!("bytes {}", join(&bytes)),
        format!("table {}", digest(driver.table.iter().copied())),
        format!("log {}", digest(driver.log.iter().copied())),
        format!("status {} {}", of_bytes(&driver.groups), of_bytes(&driver.status)),
        format!("tails {} {}", driver.used, digest(driver.tails.iter().copied())),
    ]
}

/// An answer's number and its values.
pub fn answer_text(answered: &Answered) -> String {
    let mut numbers = vec![answered.answer.number()];
    numbers.extend_from_slice(answered.values());
    join(&numbers)
}

const MODULUS: u64 = 4294967291;

fn digest(elements: impl Iterator<Item = u64>) -> u64 {
    elements.fold(0, |h, v| (h * 31 + v % MODULUS + 1) % MODULUS)
}

fn of_bytes(bytes: &[u8]) -> u64 {
    digest(bytes.iter().map(|byte| u64::from(*byte)))
}
