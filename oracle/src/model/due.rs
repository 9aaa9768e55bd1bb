//! The asking that is due, which brings a transaction on.
//!
//! Written from document 01 alone.

use super::{phase, Record, Work};

impl Record {
    /// "Due asking: structure in phases with a successor; update in phase 5, or
    /// phase 0 not restoring with applied < entries; rollback when restoring with
    /// entries > 0."
    pub fn due(&self) -> Option<Work> {
        if phase::successor(self.phase).is_some() {
            Some(Work::Structure)
        } else if self.phase == phase::UPDATES || self.waits_for_update() {
            Some(Work::Update)
        } else if self.undoes() {
            Some(Work::Rollback)
        } else {
            None
        }
    }

    fn waits_for_update(&self) -> bool {
        self.phase == phase::NONE && !self.restoring && self.applied < self.entries
    }
}
