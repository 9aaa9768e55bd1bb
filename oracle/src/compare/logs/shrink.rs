//! Finding a small log on which two sides still differ: what is past the count
//! goes, then blocks of events, then single events, then numbers are made
//! smaller, while a difference remains.

mod take;

use super::sides::Case;
use crate::sizes::{LOG_HEAD, WORD_BYTES};
use std::io;

/// Tells whether the two sides differ on a case.
pub type Differs<'a> = &'a mut dyn FnMut(&Case) -> io::Result<bool>;

struct Shrinker<'a> {
    case: Case,
    differs: Differs<'a>,
    tries: u64,
}

/// A case that is no larger, on which the sides differ, and how many were tried.
pub fn smallest(case: Case, differs: Differs) -> io::Result<(Case, u64)> {
    let mut shrinker = Shrinker { case, differs, tries: 0 };
    if let Some(events) = shrinker.events() {
        if shrinker.take_events(&events)? {
            shrinker.drop_events()?;
            shrinker.lower_events()?;
        }
    } else {
        shrinker.clear_events()?;
    }
    shrinker.lower_words()?;
    if shrinker.events().is_some() {
        shrinker.drop_events()?;
    }
    Ok((shrinker.case, shrinker.tries))
}

impl Shrinker<'_> {
    /// Drops blocks of half the events, a quarter and so on down to one, and
    /// single events again until none can go.
    fn drop_events(&mut self) -> io::Result<()> {
        let mut size = (self.known().len() / 2).max(1);
        loop {
            let before = self.known().len();
            let mut end = before;
            while end > 0 {
                let marked = self.marked();
                let start = end.saturating_sub(size);
                let rest = [&marked[..start], &marked[end..]].concat();
                self.take_marked(&rest, self.case.words.clone())?;
                end = start;
            }
            if size == 1 && self.known().len() == before {
                return Ok(());
            }
            size = (size / 2).max(1);
        }
    }

    /// Makes each word of an event zero, or else one, or else half of it.
    fn lower_events(&mut self) -> io::Result<()> {
        for number in 0..self.known().len() {
            for at in 0..self.known()[number].len() {
                for lower in lower_than(self.known()[number][at]) {
                    let mut events = self.known();
                    events[number][at] = lower;
                    if self.take_events(&events)? {
                        break;
                    }
                }
            }
        }
        Ok(())
    }

    /// Of a log that is refused, makes all bytes after the head zero.
    fn clear_events(&mut self) -> io::Result<()> {
        let mut bytes = self.case.bytes.clone();
        let head = bytes.len().min((WORD_BYTES * LOG_HEAD) as usize);
        bytes[head..].fill(0);
        self.take_bytes(bytes).map(drop)
    }

    /// Makes the numbers after the file's name smaller.
    fn lower_words(&mut self) -> io::Result<()> {
        for at in 0..self.case.words.len() {
            let number = self.case.words[at].parse().unwrap_or(0);
            for lower in lower_than(number) {
                let mut words = self.case.words.clone();
                words[at] = lower.to_string();
                if self.take_words(words)? {
                    break;
                }
            }
        }
        Ok(())
    }
}

/// Numbers to try in place of one, the least first.
fn lower_than(number: u64) -> impl Iterator<Item = u64> {
    [0, 1, 2, number / 2].into_iter().filter(move |lower| *lower < number)
}
