//! The record, and when it is whole.
//!
//! Written from documents 01 and 02 alone.

use super::{phase, Opening};
use crate::sizes::{AREA, MAX_ACTIONS, TOP};

/// What a ticket is given for.
#[derive(Clone, Copy, Debug, PartialEq, Eq)]
pub enum Work {
    Structure,
    Update,
    Rollback,
}

#[derive(Clone, Copy, Debug, PartialEq, Eq)]
pub struct Ticket {
    pub work: Work,
    pub number: u64,
}

/// The record; its default is that of an opening at 0, 0, 0 with an empty
/// payload.
#[derive(Clone, Debug, Default, PartialEq, Eq)]
pub struct Record {
    pub revision: u64,
    pub serial: u64,
    pub accepted: u64,
    pub candidate: u64,
    pub recovery: u64,
    pub staged: bool,
    pub phase: u64,
    pub forward: u64,
    pub back: u64,
    pub entries: u64,
    pub applied: u64,
    pub attempted: u64,
    pub restoring: bool,
    pub live: Option<Ticket>,
    pub replacements: u64,
}

impl Record {
    /// The record of an opening.
    pub fn opened(opening: Opening, accepted: u64) -> Record {
        let Opening { revision, serial, replacements } = opening;
        Record { revision, serial, replacements, accepted, ..Record::default() }
    }

    /// What an opening would be given to go on from here.
    pub fn opening(&self) -> Opening {
        let Record { revision, serial, replacements, .. } = *self;
        Opening { revision, serial, replacements }
    }

    pub fn whole(&self) -> bool {
        self.amounts_hold()
            && self.staging_holds()
            && self.phase_counts_hold()
            && self.progress_holds()
            && self.ticket_holds()
    }

    fn amounts_hold(&self) -> bool {
        self.accepted <= AREA
            && self.candidate <= AREA
            && self.recovery <= AREA
            && self.entries <= MAX_ACTIONS
            && self.applied <= self.attempted
            && self.attempted - self.applied <= 1
            && self.attempted <= self.entries
    }

    fn staging_holds(&self) -> bool {
        if self.staged {
            self.revision < TOP && self.replacements < TOP
        } else {
            self.phase == phase::NONE && self.entries == 0 && self.live.is_none()
        }
    }

    fn phase_counts_hold(&self) -> bool {
        phase::forward(self.phase).map_or(false, |counts| counts.contains(&self.forward))
            && self.back == phase::back(self.phase)
    }

    fn progress_holds(&self) -> bool {
        if self.restoring && self.attempted != self.entries {
            return false;
        }
        match self.phase {
            phase::NONE => true,
            phase::REMOVE..=phase::SETTLE_MOUNTED => !self.restoring && self.attempted == 0,
            phase::UPDATES => !self.restoring && (self.applied < self.entries || self.entries == 0),
            phase::ADOPT | phase::READY => self.complete(),
            phase::UNDO => self.restoring && self.entries > 0,
            phase::RECOVER_REMOVE..=phase::RECOVERED => self.restoring && self.entries == 0,
            _ => false,
        }
    }

    fn ticket_holds(&self) -> bool {
        let ticket = match self.live {
            None => return true,
            Some(ticket) => ticket,
        };
        let fits = match ticket.work {
            Work::Structure => phase::successor(self.phase).is_some(),
            Work::Update => self.updates() && self.attempted > self.applied,
            Work::Rollback => self.undoes(),
        };
        fits && ticket.number == self.serial && self.serial >= 1
    }

    pub fn complete(&self) -> bool {
        !self.restoring && self.applied == self.entries
    }

    /// In phase 0 or 5, and not restoring.
    pub fn updates(&self) -> bool {
        phase::updating(self.phase) && !self.restoring
    }

    /// Restoring, with entries left.
    pub fn undoes(&self) -> bool {
        self.restoring && self.entries > 0
    }

    /// Whether an ask that is not refused gives a ticket.
    pub(super) fn has_left(&self, work: Work) -> bool {
        match work {
            Work::Structure => phase::successor(self.phase).is_some(),
            Work::Update => self.applied != self.entries,
            Work::Rollback => !phase::going_back(self.phase) && self.attempted > 0,
        }
    }

    /// Spends one serial on a ticket, which is live from here on.
    pub(super) fn give(&mut self, work: Work) -> u64 {
        self.serial += 1;
        self.live = Some(Ticket { work, number: self.serial });
        self.serial
    }

    /// Puts settings of this length in force in place of others.
    pub(super) fn replace(&mut self, accepted: u64) {
        self.accepted = accepted;
        self.replacements += 1;
    }

    /// What commit and both recoveries leave besides the revision.
    pub(super) fn settle(&mut self, accepted: u64) {
        self.replace(accepted);
        *self = Record::opened(self.opening(), accepted);
    }
}
