//! The record as a row of numbers in the order of the driver's page, and back.
//!
//! Written from the page on the driver's script alone.

use super::{Record, Ticket, Work};

/// How many numbers a row has.
pub const FIELDS: usize = 16;

/// Where these stand in a row.
pub const STAGED: usize = 5;
pub const RESTORING: usize = 12;
pub const KIND: usize = 13;
pub const TICKET: usize = 14;

impl Work {
    pub const ALL: [Work; 3] = [Work::Structure, Work::Update, Work::Rollback];

    /// The number of such work or of none: as the kind of a live ticket, and as
    /// the asking that is due.
    pub fn number_of(work: Option<Work>) -> u64 {
        work.map_or(0, Work::number)
    }

    fn number(self) -> u64 {
        match self {
            Work::Structure => 1,
            Work::Update => 2,
            Work::Rollback => 3,
        }
    }
}

fn flag(number: u64) -> Option<bool> {
    match number {
        0 => Some(false),
        1 => Some(true),
        _ => None,
    }
}

/// The live ticket of a kind and a number, if they are one or none.
fn live(kind: u64, number: u64) -> Option<Option<Ticket>> {
    if kind == 0 {
        return if number == 0 { Some(None) } else { None };
    }
    let work = Work::ALL.into_iter().find(|work| work.number() == kind)?;
    Some(Some(Ticket { work, number }))
}

impl Record {
    pub fn row(&self) -> [u64; FIELDS] {
        let kind = Work::number_of(self.live.map(|live| live.work));
        let number = self.live.map_or(0, |live| live.number);
        [
            self.revision,
            self.serial,
            self.accepted,
            self.candidate,
            self.recovery,
            u64::from(self.staged),
            self.phase,
            self.forward,
            self.back,
            self.entries,
            self.applied,
            self.attempted,
            u64::from(self.restoring),
            kind,
            number,
            self.replacements,
        ]
    }

    #[rustfmt::skip]
    pub fn of_row(row: [u64; FIELDS]) -> Option<Record> {
        let [
            revision, serial, accepted, candidate, recovery, staged, phase, forward, back,
            entries, applied, attempted, restoring, kind, number, replacements,
        ] = row;
        let (staged, restoring, live) = (flag(staged)?, flag(restoring)?, live(kind, number)?);
        Some(Record {
            revision, serial, accepted, candidate, recovery, staged, phase, forward, back,
            entries, applied, attempted, restoring, live, replacements,
        })
    }
}
