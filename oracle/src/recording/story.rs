//! Telling the events of a recording, with the tickets that its askings are given.
//!
//! Written from documents 01 and 02 alone.

use super::{bytes, event, full, Recording};
use crate::input::{Event, ACTIONS, CANDIDATE, CODE, OUTCOME, RECOVERY, SNAPSHOT, TICKET};
use crate::model::{Name, Opening, Outcome};

/// The length of the settings in force.
pub const LENGTH: u64 = 300;

/// The lengths of the candidate settings, and of those to go back to.
const LENGTHS: [(usize, u64); 2] = [(CANDIDATE, 320), (RECOVERY, LENGTH)];

pub struct Story {
    opening: Opening,
    events: Vec<Event>,
    /// The ticket that was given last.
    pub ticket: u64,
}

impl Story {
    pub fn new(opening: Opening) -> Story {
        Story { opening, events: vec![], ticket: opening.serial }
    }

    /// The recording of what was told.
    pub fn recording(&self) -> Recording {
        let bytes = bytes(&full(&self.events));
        Recording { opening: self.opening, length: LENGTH, bytes }
    }

    pub fn tell(&mut self, name: Name, words: &[(usize, u64)]) {
        self.events.push(event(name, words));
    }

    /// Events of calls that are given nothing.
    pub fn call(&mut self, names: &[Name]) {
        for name in names {
            self.tell(*name, &[]);
        }
    }

    /// An asking that is answered by a ticket.
    pub fn ask(&mut self, name: Name) {
        self.tell(name, &[]);
        self.ticket += 1;
    }

    /// Such an asking, and the report of it.
    fn work(&mut self, ask: Name, report: Name, outcome: Outcome) {
        self.ask(ask);
        self.report(report, self.ticket, outcome);
    }

    pub fn report(&mut self, name: Name, ticket: u64, outcome: Outcome) {
        let (number, code) = match outcome {
            Outcome::Waiting => (Outcome::WAITING, 0),
            Outcome::Failed(code) => (Outcome::FAILED, code),
            Outcome::Done => (Outcome::DONE, 0),
        };
        let lengths = if name == Name::ReportStructure { &LENGTHS[..] } else { &[] };
        let words = [(TICKET, ticket), (OUTCOME, number), (CODE, code)];
        self.tell(name, &[&words, lengths].concat());
    }

    pub fn structure(&mut self, outcome: Outcome) {
        self.work(Name::AskStructure, Name::ReportStructure, outcome);
    }

    pub fn update(&mut self, outcome: Outcome) {
        self.work(Name::AskUpdate, Name::ReportUpdate, outcome);
    }

    pub fn undo(&mut self, outcome: Outcome) {
        self.work(Name::AskRollback, Name::ReportRollback, outcome);
    }

    pub fn begin(&mut self, name: Name, actions: u64) {
        self.tell(name, &[&[(ACTIONS, actions)], &LENGTHS[..]].concat());
    }

    /// A recovery or a refresh with a snapshot of this length.
    pub fn replace(&mut self, name: Name, length: u64) {
        self.tell(name, &[(SNAPSHOT, length)]);
    }
}
