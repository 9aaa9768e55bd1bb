//! Trying another case, and what is known of the one that was taken last.

use super::super::tickets;
use super::{Case, Shrinker};
use crate::input::{self, Event};
use crate::log;
use crate::program::{words_of, Told};
use crate::recording::{bytes, full};
use std::io;

/// So many cases are tried at most.
const TRIES: u64 = 3000;

impl Shrinker<'_> {
    /// Goes on with a case if the sides differ on it.
    pub(super) fn take(&mut self, case: Case) -> io::Result<bool> {
        if self.tries >= TRIES {
            return Ok(false);
        }
        self.tries += 1;
        let kept = (self.differs)(&case)?;
        if kept {
            self.case = case;
        }
        Ok(kept)
    }

    pub(super) fn take_bytes(&mut self, bytes: Vec<u8>) -> io::Result<bool> {
        self.take(Case { bytes, ..self.case.clone() })
    }

    fn told(&self, words: &[String]) -> Told {
        self.case.program.told(words).expect("words that are numbers")
    }

    /// The events that are known, each with whether its ticket is the live one.
    pub(super) fn marked(&self) -> Vec<(Event, bool)> {
        let events = self.known();
        let right = tickets::right(&events, &self.told(&self.case.words));
        events.into_iter().zip(right).collect()
    }

    /// Goes on with such events as they are, or else with their tickets moved.
    pub(super) fn take_marked(
        &mut self,
        marked: &[(Event, bool)],
        words: Vec<String>,
    ) -> io::Result<bool> {
        let events: Vec<Event> = marked.iter().map(|(event, _)| *event).collect();
        let moved = tickets::retuned(marked, &self.told(&words));
        let differs = moved != events;
        let program = self.case.program;
        let case =
            |events: &[Event]| Case { program, bytes: bytes(&full(events)), words: words.clone() };
        Ok(self.take(case(&events))? || differs && self.take(case(&moved))?)
    }

    pub(super) fn take_events(&mut self, events: &[Event]) -> io::Result<bool> {
        self.take_bytes(bytes(&full(events)))
    }

    /// The events up to the count, where the log is not refused.
    pub(super) fn events(&self) -> Option<Vec<Event>> {
        let words = words_of(&self.case.bytes)?;
        input::check(&words).ok()?;
        Some((0..words[log::COUNT]).map(|number| input::event(&words, number)).collect())
    }

    /// The events of a log that is known not to be refused.
    pub(super) fn known(&self) -> Vec<Event> {
        self.events().expect("only logs that are not refused were taken")
    }

    /// Goes on with other words after the file's name, the log as it is, or else
    /// with its tickets moved.
    pub(super) fn take_words(&mut self, words: Vec<String>) -> io::Result<bool> {
        if self.case.program.told(&words).is_err() {
            return Ok(false);
        }
        Ok(self.take(Case { words: words.clone(), ..self.case.clone() })?
            || self.events().is_some() && self.take_marked(&self.marked(), words)?)
    }
}
