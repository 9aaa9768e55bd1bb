//! Which call is made next on a record.
//!
//! Written from documents 01 and 02 alone.

use super::Dice;
use crate::model::{phase, Name, Record, Work};

impl Dice {
    /// What a careful caller might do, now and then turning back.
    pub fn sensible(&mut self, r: &Record) -> Name {
        if !r.staged {
            self.idle()
        } else if let Some(live) = r.live {
            self.with_ticket(live.work)
        } else if self.chance(6) {
            self.pick(&[Name::AskRollback, Name::Edit])
        } else {
            self.due(r)
        }
    }

    /// What brings a reload to its end: it never turns back by itself.
    pub fn steady(&mut self, r: &Record) -> Name {
        match r.live {
            Some(live) => report_of(live.work),
            None if r.staged => self.due(r),
            None => self.pick(&[Name::Begin, Name::BeginStructural]),
        }
    }

    fn idle(&mut self) -> Name {
        use Name::*;
        if self.chance(70) {
            self.pick(&[Begin, Begin, BeginStructural, BeginStructural, Refresh, Stamp])
        } else {
            self.pick(&[Check, AskRollback, AskUpdate, Stamp, Refresh])
        }
    }

    fn with_ticket(&mut self, work: Work) -> Name {
        if self.chance(6) {
            return self.pick(&[Name::AskRollback, Name::AskStructure, Name::AskUpdate]);
        }
        report_of(work)
    }

    fn due(&mut self, r: &Record) -> Name {
        let ended = r.phase == phase::READY || r.phase == phase::RECOVERED;
        if phase::successor(r.phase).is_some() || (ended && self.chance(25)) {
            Name::AskStructure
        } else if r.undoes() {
            Name::AskRollback
        } else if r.phase == phase::UPDATES || (r.updates() && r.applied < r.entries) {
            Name::AskUpdate
        } else if r.entries == 0 && (r.restoring || self.chance(30)) {
            self.pick(&[Name::Recover, Name::RecoverRetained])
        } else {
            Name::Commit
        }
    }
}

fn report_of(work: Work) -> Name {
    match work {
        Work::Structure => Name::ReportStructure,
        Work::Update => Name::ReportUpdate,
        Work::Rollback => Name::ReportRollback,
    }
}
