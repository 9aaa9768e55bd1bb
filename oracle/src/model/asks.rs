//! The steps of the three asks.
//!
//! Written from document 01 alone.

use super::{phase, Record, Step, Work};
use crate::answer::Answer;

pub(super) fn ask(old: &Record, work: Work) -> Step {
    match work {
        Work::Structure => ask_structure(old),
        Work::Update => ask_update(old),
        Work::Rollback => ask_rollback(old),
    }
}

/// A ticket for a phase or an action's number.
fn ticket(mut new: Record, work: Work, item: u64) -> Step {
    let number = new.give(work);
    Step::new(Answer::Ticket.with(&[number, item]), new)
}

fn finished(new: Record) -> Step {
    Step::new(Answer::Finished.bare(), new)
}

fn ask_structure(old: &Record) -> Step {
    if old.has_left(Work::Structure) {
        ticket(old.clone(), Work::Structure, old.phase)
    } else {
        finished(old.clone())
    }
}

/// Where all updates are applied, phase 5 becomes 6.
pub(super) fn leave_updates(record: &mut Record) {
    if record.phase == phase::UPDATES {
        record.phase = phase::ADOPT;
    }
}

fn ask_update(old: &Record) -> Step {
    let mut new = old.clone();
    if old.has_left(Work::Update) {
        new.attempted = old.applied + 1;
        ticket(new, Work::Update, old.applied)
    } else {
        leave_updates(&mut new);
        finished(new)
    }
}

fn ask_rollback(old: &Record) -> Step {
    let mut new = old.clone();
    if phase::going_back(old.phase) {
        return finished(new);
    }
    let left = old.has_left(Work::Rollback);
    new.restoring = true;
    new.entries = old.attempted;
    new.live = None;
    if phase::going_forward(old.phase) {
        new.phase = if left { phase::UNDO } else { phase::RECOVER_REMOVE };
    }
    if left {
        let last = new.entries - 1;
        ticket(new, Work::Rollback, last)
    } else {
        finished(new)
    }
}
