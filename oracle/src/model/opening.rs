//! What an opening is given besides its payload, and what a stamp holds.
//!
//! Written from documents 01 and 02 alone.

use super::Record;

#[derive(Clone, Copy, Debug, Default, PartialEq, Eq)]
pub struct Opening {
    pub revision: u64,
    pub serial: u64,
    /// How often the settings were replaced.
    pub replacements: u64,
}

impl Opening {
    /// The words of an opening in a script.
    pub const WORDS: usize = 3;

    /// An opening of settings that were never replaced.
    pub fn at(revision: u64, serial: u64) -> Opening {
        Opening { revision, serial, ..Opening::default() }
    }

    pub fn words(self) -> [u64; Opening::WORDS] {
        [self.revision, self.serial, self.replacements]
    }

    pub fn of_words([revision, serial, replacements]: [u64; Opening::WORDS]) -> Opening {
        Opening { revision, serial, replacements }
    }
}

/// A domain, and the revision and the count of replacements that are stamped.
#[derive(Clone, Copy, Debug, PartialEq, Eq)]
pub struct Stamp {
    pub domain: u64,
    pub revision: u64,
    pub replacements: u64,
}

impl Stamp {
    /// The words of a stamp in a script.
    pub const WORDS: usize = 3;

    /// The stamp of a record for a domain.
    pub fn of(record: &Record, domain: u64) -> Stamp {
        Stamp { domain, revision: record.revision, replacements: record.replacements }
    }

    pub fn words(self) -> [u64; Stamp::WORDS] {
        [self.domain, self.revision, self.replacements]
    }

    pub fn of_words([domain, revision, replacements]: [u64; Stamp::WORDS]) -> Stamp {
        Stamp { domain, revision, replacements }
    }
}

/// A stamp with the domain that it is checked against.
#[derive(Clone, Copy, Debug, PartialEq, Eq)]
pub struct Claim {
    pub domain: u64,
    pub stamp: Stamp,
}

impl Claim {
    /// A record's own stamp for a domain, checked against that domain.
    pub fn of(record: &Record, domain: u64) -> Claim {
        Claim { domain, stamp: Stamp::of(record, domain) }
    }
}
