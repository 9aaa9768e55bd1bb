//! The next call of a made script: any, or one that a careful caller makes.
//!
//! Written from documents 01 and 02 and the page on the driver's script alone.

use super::Maker;
use crate::line;
use crate::model::{Name, Outcome, CALLS};
use crate::sizes::TOP;

impl Maker<'_> {
    pub(super) fn any_call(&mut self) -> String {
        let but_open = &CALLS[Name::Begin as usize..];
        let at = self.dice.below(but_open.len() as u64) as usize;
        self.line_of(but_open[at].name)
    }

    /// What a careful caller might do next, now and then turning back. Where no
    /// begin can come any more, that is an opening at times.
    pub(super) fn sensible(&mut self) -> String {
        let r = self.record().clone();
        let last = r.revision == TOP || r.replacements == TOP;
        if last && self.dice.chance(25) {
            return self.opening();
        }
        let name = self.dice.sensible(&r);
        self.line_of(name)
    }

    /// A call of this name with arguments chosen for the state.
    pub(super) fn line_of(&mut self, name: Name) -> String {
        let word = name.word();
        match name {
            Name::Begin | Name::BeginStructural => {
                let (c, r, w) = (self.dice.payload(), self.dice.payload(), self.dice.pairs());
                format!("{} {} {} {}", word, c, r, w)
            }
            Name::ReportStructure => {
                let (c, r) = (self.dice.payload(), self.dice.payload());
                format!("{} {} {} {}", word, self.report(), c, r)
            }
            Name::ReportUpdate | Name::ReportRollback => {
                format!("{} {} {}", word, self.report(), self.dice.any())
            }
            Name::Edit => format!("{} {} {}", word, self.dice.payload(), self.dice.payload()),
            Name::Recover | Name::Refresh => format!("{} {}", word, self.lent_length()),
            Name::Stamp => format!("{} {}", word, self.dice.any()),
            Name::Check => line::check(self.claim()),
            Name::Link | Name::Initialize | Name::Cancel => {
                let id = self.id();
                self.status_call(id)
            }
            Name::AddTail | Name::RemoveTail => self.tail_call(name),
            Name::FindTail | Name::MoveTail => self.tail_call(name),
            Name::FindStruct | Name::MoveStruct => self.tail_call(name),
            _ => word.to_string(),
        }
    }

    fn lent_length(&mut self) -> u64 {
        if self.dice.chance(5) {
            self.dice.any()
        } else {
            self.dice.bold_length()
        }
    }

    /// Ticket, outcome and code of a report: mostly the live ticket.
    fn report(&mut self) -> String {
        let record = self.record();
        let live = record.live.map_or(record.serial, |live| live.number);
        let ticket = match self.dice.below(12) {
            0 => self.dice.any(),
            1 | 2 => self.dice.beside(live),
            _ => live,
        };
        let outcome =
            if self.dice.chance(70) { Outcome::DONE } else { self.dice.below(Outcome::DONE) };
        format!("{} {} {}", ticket, outcome, self.dice.any())
    }
}
