//! The phases by name, and what their numbers say.
//!
//! Written from document 01 alone. A phase is a number, since a record may be
//! given any.

use std::ops::RangeInclusive;

pub const NONE: u64 = 0;
pub const REMOVE: u64 = 1;
pub const SETTLE_REMOVED: u64 = 2;
pub const MOUNT: u64 = 3;
pub const SETTLE_MOUNTED: u64 = 4;
pub const UPDATES: u64 = 5;
pub const ADOPT: u64 = 6;
pub const READY: u64 = 7;
pub const UNDO: u64 = 8;
pub const RECOVER_REMOVE: u64 = 9;
pub const RECOVER_SETTLE_REMOVED: u64 = 10;
pub const RECOVER_MOUNT: u64 = 11;
pub const RECOVER_SETTLE_MOUNTED: u64 = 12;
pub const RECOVERED: u64 = 13;

/// How many phases there are.
pub const COUNT: u64 = RECOVERED + 1;

/// The largest forward count and the largest back count.
pub const FORWARD_MOST: u64 = 5;
pub const BACK_MOST: u64 = 4;

pub fn successor(phase: u64) -> Option<u64> {
    match phase {
        REMOVE..=SETTLE_MOUNTED | ADOPT | RECOVER_REMOVE..=RECOVER_SETTLE_MOUNTED => {
            Some(phase + 1)
        }
        _ => None,
    }
}

pub fn boundary(phase: u64) -> bool {
    matches!(phase, UPDATES | READY | RECOVERED)
}

/// Where an update may be asked for.
pub fn updating(phase: u64) -> bool {
    matches!(phase, NONE | UPDATES)
}

/// Where a structural transaction goes forward.
pub fn going_forward(phase: u64) -> bool {
    matches!(phase, REMOVE..=READY)
}

/// Where its structure is taken back.
pub fn going_back(phase: u64) -> bool {
    matches!(phase, RECOVER_REMOVE..=RECOVERED)
}

/// The forward counts of a phase; none is right past the last.
pub fn forward(phase: u64) -> Option<RangeInclusive<u64>> {
    Some(match phase {
        NONE | REMOVE => 0..=0,
        SETTLE_REMOVED => 1..=1,
        MOUNT => 2..=2,
        SETTLE_MOUNTED => 3..=3,
        UPDATES | ADOPT => 4..=4,
        READY => 5..=5,
        UNDO => 4..=5,
        RECOVER_REMOVE..=RECOVERED => 0..=FORWARD_MOST,
        _ => return None,
    })
}

/// The back count of a phase.
pub fn back(phase: u64) -> u64 {
    match phase {
        RECOVER_SETTLE_REMOVED => 1,
        RECOVER_MOUNT => 2,
        RECOVER_SETTLE_MOUNTED => 3,
        RECOVERED => BACK_MOST,
        _ => 0,
    }
}
