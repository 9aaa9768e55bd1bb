//! Random records, whole and damaged.
//!
//! Written from documents 01 and 02 and the page on the driver's script alone.

use super::Dice;
use crate::model::{phase, Record, Ticket, Work};
use crate::sizes::*;

impl Dice {
    /// How many actions a begin might have.
    pub fn entries(&mut self) -> u64 {
        match self.below(10) {
            0 => MAX_ACTIONS,
            1 => MAX_ACTIONS - 1,
            2 => self.below(MAX_ACTIONS + 1),
            _ => self.below(4),
        }
    }

    /// A record that is whole, in any phase.
    pub fn whole_record(&mut self) -> Record {
        let mut r = Record::opened(self.opening(), self.length());
        r.candidate = self.length();
        r.recovery = self.length();
        r.serial = self.pick(&[0, 1, 2, 7, TOP, TOP - 1, TOP - 2]);
        if self.chance(15) {
            r.restoring = self.chance(40);
            return r;
        }
        r.staged = true;
        r.revision = r.revision.min(TOP - 1);
        r.replacements = r.replacements.min(TOP - 1);
        r.phase = if self.chance(30) { phase::NONE } else { self.below(phase::COUNT) };
        self.fill_counts(&mut r);
        self.fill_ticket(&mut r);
        r
    }

    fn fill_counts(&mut self, r: &mut Record) {
        let entries = self.entries();
        match r.phase {
            phase::NONE => {
                r.restoring = self.chance(40);
                r.entries = entries;
            }
            phase::REMOVE..=phase::UPDATES => r.entries = entries,
            phase::ADOPT | phase::READY => {
                r.entries = entries;
                r.applied = entries;
                r.attempted = entries;
            }
            phase::UNDO => {
                r.restoring = true;
                r.entries = entries.max(1);
            }
            _ => r.restoring = true,
        }
        self.fill_progress(r);
        let (least, most) = phase::forward(r.phase).expect("a phase").into_inner();
        r.forward = if least == most { least } else { least + self.below(most - least + 1) };
        r.back = phase::back(r.phase);
    }

    fn fill_progress(&mut self, r: &mut Record) {
        if r.undoes() {
            r.attempted = r.entries;
            r.applied = r.entries - self.below(2);
        } else if phase::updating(r.phase) && r.entries > 0 {
            r.applied = self.pick(&[0, r.entries - 1, r.entries / 2, r.entries]);
            if r.phase == phase::UPDATES && r.applied == r.entries {
                r.applied -= 1;
            }
            r.attempted = (r.applied + self.below(2)).min(r.entries);
        }
    }

    fn fill_ticket(&mut self, r: &mut Record) {
        if self.chance(35) {
            return;
        }
        let work = if phase::successor(r.phase).is_some() {
            Work::Structure
        } else if r.updates() && r.attempted > r.applied {
            Work::Update
        } else if r.undoes() {
            Work::Rollback
        } else {
            return;
        };
        r.serial = r.serial.max(1);
        r.live = Some(Ticket { work, number: r.serial });
    }

    fn nearby(&mut self, value: u64, most: u64) -> u64 {
        let moved = match self.below(4) {
            0 => value.saturating_add(1),
            1 => value.saturating_sub(1),
            2 => value.saturating_add(2),
            _ => self.below(6),
        };
        moved.min(most)
    }

    /// Changes one field, mostly so that the record is whole no more. Fields
    /// stay within what every driver takes.
    pub fn mutate(&mut self, r: &mut Record) {
        let length = self.pick(&[AREA, AREA + 1, AREA + 2, 2 * AREA, COUNT_MOST]);
        match self.below(15) {
            0 => r.revision = self.pick(&[TOP, TOP - 1]),
            1 => r.serial = self.nearby(r.serial, TOP),
            2 => r.accepted = length,
            3 => r.candidate = length,
            4 => r.recovery = length,
            5 => r.staged = !r.staged,
            6 => r.phase = self.wild_phase(),
            7 => r.forward = self.nearby(r.forward, FIELD_MOST),
            8 => r.back = self.nearby(r.back, FIELD_MOST),
            9 => r.entries = self.wild_count(r.entries),
            10 => r.applied = self.wild_count(r.applied),
            11 => r.attempted = self.wild_count(r.attempted),
            12 => r.restoring = !r.restoring,
            13 => r.replacements = self.pick(&[TOP, TOP - 1]),
            _ => self.mutate_ticket(r),
        }
    }

    fn wild_phase(&mut self) -> u64 {
        if self.chance(20) {
            self.pick(&[phase::COUNT, phase::COUNT + 1, FIELD_MOST])
        } else {
            self.below(phase::COUNT)
        }
    }

    fn wild_count(&mut self, value: u64) -> u64 {
        if self.chance(25) {
            self.pick(&[MAX_ACTIONS, MAX_ACTIONS + 1, MAX_ACTIONS + 2, FIELD_MOST, COUNT_MOST])
        } else {
            self.nearby(value, COUNT_MOST)
        }
    }

    fn mutate_ticket(&mut self, r: &mut Record) {
        let work = self.pick(&Work::ALL);
        r.live = match r.live {
            Some(Ticket { work, number }) if self.chance(40) => {
                Some(Ticket { work, number: self.nearby(number, TOP) })
            }
            Some(_) if self.chance(20) => None,
            _ => Some(Ticket { work, number: r.serial }),
        };
    }
}
