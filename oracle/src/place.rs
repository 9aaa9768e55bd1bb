//! What can be lent: the name of each in a script, how much of it the driver
//! holds and lends at its start, and which sizes are right.
//!
//! Written from documents 01 and 02 and the page on the driver's script alone.

use crate::log;
use crate::sizes::*;
use std::fmt;

/// Four areas, the table, the log, groups, status and the tail table.
#[derive(Clone, Copy, Debug, PartialEq, Eq)]
pub enum Place {
    Accepted,
    Candidate,
    Recovery,
    Exchange,
    Table,
    Log,
    Groups,
    Status,
    Tails,
}

impl Place {
    pub const ALL: [Place; 9] = [
        Place::Accepted,
        Place::Candidate,
        Place::Recovery,
        Place::Exchange,
        Place::Table,
        Place::Log,
        Place::Groups,
        Place::Status,
        Place::Tails,
    ];

    /// The areas and the table: what the transaction is lent.
    pub fn of_transaction() -> &'static [Place] {
        &Place::ALL[..=Place::Table as usize]
    }

    pub fn of_letter(letter: &[u8]) -> Option<Place> {
        Place::ALL.into_iter().find(|place| place.about().0.as_bytes() == letter)
    }

    pub fn held(self) -> u64 {
        self.about().1
    }

    pub fn lent_at_start(self) -> u64 {
        self.about().2
    }

    /// The letter in a script, what is held, and what is lent at the start.
    fn about(self) -> (&'static str, u64, u64) {
        match self {
            Place::Accepted => ("a", HELD_AREA, AREA),
            Place::Candidate => ("c", HELD_AREA, AREA),
            Place::Recovery => ("r", HELD_AREA, AREA),
            Place::Exchange => ("x", HELD_AREA, AREA),
            Place::Table => ("t", HELD_TABLE, TABLE),
            Place::Log => ("l", HELD_LOG, 0),
            Place::Groups => ("g", HELD_IDS, LENT_IDS),
            Place::Status => ("s", HELD_IDS, LENT_IDS),
            Place::Tails => ("f", HELD_TAILS, TAILS_MOST),
        }
    }

    /// Whether so many bytes or words are a right size to lend.
    pub fn fits(self, size: u64) -> bool {
        match self {
            Place::Accepted | Place::Candidate | Place::Recovery | Place::Exchange => size == AREA,
            Place::Table => size == TABLE,
            Place::Log => log::fits(size, EVENT),
            Place::Groups | Place::Status => (1..=IDS_MOST).contains(&size),
            Place::Tails => size <= TAILS_MOST && size % TAIL == 0,
        }
    }

    /// The largest element.
    pub fn most(self) -> u64 {
        match self {
            Place::Table | Place::Log | Place::Tails => TOP,
            _ => BYTE_MOST,
        }
    }
}

impl fmt::Display for Place {
    fn fmt(&self, to: &mut fmt::Formatter) -> fmt::Result {
        to.write_str(self.about().0)
    }
}
