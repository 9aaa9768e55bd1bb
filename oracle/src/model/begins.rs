//! The steps of open, both begins and edit.
//!
//! Written from document 01 alone.

use super::{phase, Lengths, Opening, Record, Step};

pub(super) fn open(opening: Opening, length: u64) -> Step {
    Step::done(Record::opened(opening, length), &[])
}

pub(super) fn begin(old: &Record, structural: bool, lengths: Lengths, actions: u64) -> Step {
    let mut new = Record::opened(old.opening(), old.accepted);
    lengths.store(&mut new);
    new.staged = true;
    new.entries = actions;
    new.phase = if structural { phase::REMOVE } else { phase::NONE };
    Step::done(new, &[])
}

pub(super) fn edit(old: &Record, lengths: Lengths) -> Step {
    let mut new = old.clone();
    lengths.store(&mut new);
    Step::done(new, &[])
}
