//! Comparing replays: what is met of the program that replays an input log. Each
//! log is replayed in portions of several sizes.

pub mod faults;
mod totals;

pub use totals::Totals;

/// The portions in which each log is replayed; the last takes all at once.
const PORTIONS: [u64; 4] = [1, 2, 7, crate::sizes::PORTION];
