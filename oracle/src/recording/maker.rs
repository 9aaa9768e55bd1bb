//! Makes the events of a recording, following the record as it goes, so that
//! tickets and askings are mostly right.
//!
//! Written from documents 01 and 02 alone.

use super::event;
use crate::dice::Dice;
use crate::input::{self, Event, ACTIONS, CANDIDATE, CODE, OUTCOME, RECOVERY, SNAPSHOT, TICKET};
use crate::model::{Name, Opening, Outcome, Record};
use crate::replay;
use crate::sizes::{AREA, MAX_ACTIONS, TOP};

/// A number whose lowest 32 bits are those of a small one.
pub(super) const WIDE: u64 = 1 << 32;

pub(super) struct Maker {
    pub(super) dice: Dice,
    pub(super) record: Record,
    /// So many times in a hundred the rules are followed to their end.
    steady: u64,
}

/// An opening with its payload's length, and so many events that are run on it.
pub(super) fn sound(seed: u64, count: u64) -> (Opening, u64, Vec<Event>) {
    let mut maker = Maker::new(seed);
    let opening = maker.small_opening();
    let length = maker.dice.length();
    maker.record = Record::opened(opening, length);
    (opening, length, maker.events(count))
}

/// So many events of which most bring a reload to its end, on a record that is
/// opened so.
pub(super) fn followed(seed: u64, opening: Opening, length: u64, count: u64) -> Vec<Event> {
    let record = Record::opened(opening, length);
    Maker { dice: Dice::new(seed), record, steady: 85 }.events(count)
}

impl Maker {
    pub(super) fn new(seed: u64) -> Maker {
        let mut dice = Dice::new(seed);
        let steady = dice.pick(&[0, 40, 70, 90, 97]);
        Maker { dice, record: Record::default(), steady }
    }

    /// An opening from which nothing comes to its maximum.
    fn small_opening(&mut self) -> Opening {
        let mut number = || self.dice.below(1000);
        Opening { revision: number(), serial: number(), replacements: number() }
    }

    /// An opening, at times near a maximum.
    pub(super) fn opening(&mut self) -> Opening {
        let small = self.small_opening();
        match self.dice.below(24) {
            0 => self.dice.opening(),
            1 => Opening { serial: TOP - self.dice.below(60), ..small },
            2 => Opening { revision: TOP - self.dice.below(4), ..small },
            3 => Opening { replacements: TOP - self.dice.below(4), ..small },
            _ => small,
        }
    }

    pub(super) fn events(&mut self, count: u64) -> Vec<Event> {
        (0..count).map(|_| self.event()).collect()
    }

    /// The next event, which is run on the maker's own record.
    fn event(&mut self) -> Event {
        let name = self.name();
        let event = self.event_of(name);
        let call = input::read(&event).expect("an event that is not bad");
        replay::run(&mut self.record, &call);
        event
    }

    fn name(&mut self) -> Name {
        let recorded = |name: &Name| name.about().kind.is_some();
        let name = if self.dice.chance(self.steady) {
            self.dice.steady(&self.record)
        } else if self.dice.chance(75) {
            self.dice.sensible(&self.record)
        } else {
            self.dice.pick(&Name::RECORDED)
        };
        Some(name).filter(recorded).unwrap_or_else(|| self.dice.pick(&Name::RECORDED))
    }

    fn event_of(&mut self, name: Name) -> Event {
        let words = match name {
            Name::Begin | Name::BeginStructural => {
                let lengths = self.lengths();
                [&[(ACTIONS, self.actions())], &lengths[..]].concat()
            }
            Name::ReportStructure => {
                let lengths = self.lengths();
                [&self.report()[..], &lengths].concat()
            }
            Name::ReportUpdate | Name::ReportRollback => self.report().to_vec(),
            Name::Recover | Name::Refresh => vec![(SNAPSHOT, self.length())],
            _ => vec![],
        };
        event(name, &words)
    }

    fn lengths(&mut self) -> [(usize, u64); 2] {
        [(CANDIDATE, self.length()), (RECOVERY, self.length())]
    }

    fn length(&mut self) -> u64 {
        if self.dice.chance(self.steady) {
            return self.dice.length();
        }
        match self.dice.below(30) {
            0 => self.dice.pick(&[TOP, WIDE, WIDE + AREA, 1 << 63]),
            _ => self.dice.bold_length(),
        }
    }

    fn actions(&mut self) -> u64 {
        if self.dice.chance(self.steady) {
            return self.dice.entries();
        }
        match self.dice.below(12) {
            0 => MAX_ACTIONS + 1,
            1 => self.dice.pick(&[TOP, WIDE, WIDE + 1, 1 << 63, 2 * MAX_ACTIONS, 256, 257]),
            _ => self.dice.entries(),
        }
    }

    /// Ticket, outcome and code: mostly the live ticket, mostly Done.
    fn report(&mut self) -> [(usize, u64); 3] {
        let live = self.record.live.map_or(self.record.serial, |live| live.number);
        let ticket = match self.dice.below(12) {
            _ if self.dice.chance(self.steady) => live,
            0 => self.dice.any(),
            1 | 2 => self.dice.beside(live),
            _ => live,
        };
        let done = self.dice.chance(70.max(self.steady));
        let outcome = if done { Outcome::DONE } else { self.dice.below(Outcome::DONE) };
        let code = if outcome == Outcome::FAILED { self.dice.any() } else { 0 };
        [(TICKET, ticket), (OUTCOME, outcome), (CODE, code)]
    }
}
