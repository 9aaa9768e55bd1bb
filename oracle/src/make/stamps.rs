//! Stamps in a made script: those that calls are given, and episodes in which
//! the settings are replaced under one.
//!
//! Written from documents 01 and 02 and the page on the driver's script alone.

use super::tails::STAMPED;
use super::Maker;
use crate::line;
use crate::model::{Claim, Name, Record, Stamp};
use crate::sizes::TOP;
use std::io;

impl Maker<'_> {
    /// A stamp and its domain: more often one that passes.
    pub(super) fn claim(&mut self) -> Claim {
        let domain = self.dice.any();
        let claim = Claim::of(self.record(), domain);
        let stamp = claim.stamp.words().map(|number| match self.dice.below(15) {
            0 => self.dice.any(),
            1 | 2 => self.dice.beside(number),
            _ => number,
        });
        Claim { stamp: Stamp::of_words(stamp), ..claim }
    }

    /// A stamp that passes if one can, or often does.
    pub(super) fn tail_claim(&mut self) -> Claim {
        if self.dice.chance(50) {
            return self.claim();
        }
        let domain = self.dice.any();
        Claim::of(self.record(), domain)
    }

    /// A stamp, and what it is good for while the settings are replaced again
    /// and again, or are begun to be; now and then up to the last count.
    pub(super) fn stamped(&mut self) -> io::Result<()> {
        let mut record = Record::opened(self.dice.opening(), self.dice.length());
        if self.dice.chance(30) {
            record.replacements = TOP - self.dice.below(3);
        }
        self.place(&record)?;
        let claim = Claim::of(&record, self.dice.any());
        self.say(&format!("{} {}", Name::Stamp.word(), claim.domain))?;
        for _ in 0..1 + self.dice.below(3) {
            let line = self.use_of(claim);
            self.say(&line)?;
            self.replace()?;
            let line = self.use_of(claim);
            self.say(&line)?;
        }
        self.run(2)
    }

    /// Replaces the settings if nothing refuses it.
    fn replace(&mut self) -> io::Result<()> {
        use Name::{Commit, Recover, RecoverRetained, Refresh};
        let name = self.dice.pick(&[Commit, Recover, RecoverRetained, Refresh]);
        if name != Refresh {
            let (candidate, recovery) = (self.dice.payload(), self.dice.payload());
            self.say(&format!("{} {} {} 0:0", Name::Begin.word(), candidate, recovery))?;
        }
        let line = self.line_of(name);
        self.say(&line)
    }

    /// A call that is given this stamp: mostly its check.
    fn use_of(&mut self, claim: Claim) -> String {
        if self.dice.chance(60) {
            return line::check(claim);
        }
        let name = self.dice.pick(&STAMPED);
        self.tail_call_with(name, claim)
    }
}
