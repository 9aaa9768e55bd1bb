//! The steps of the three reports. A report that is not refused spends the
//! ticket and stores the payloads; an outcome without work does nothing else.
//!
//! Written from document 01 alone.

use super::asks::leave_updates;
use super::{phase, Lengths, Outcome, Record, Step};
use crate::answer::{Answer, Answered};

fn spent(old: &Record) -> Record {
    Record { live: None, ..old.clone() }
}

fn more_or_finished(finished: bool) -> Answered {
    if finished { Answer::Finished } else { Answer::More }.bare()
}

pub(super) fn report_structure(old: &Record, outcome: Outcome, lengths: Lengths) -> Step {
    let mut new = spent(old);
    lengths.store(&mut new);
    let answered = outcome.without_work().unwrap_or_else(|| {
        if phase::going_back(old.phase) {
            new.back += 1;
        } else {
            new.forward += 1;
        }
        new.phase = phase::successor(old.phase).expect("a live structure ticket has a successor");
        more_or_finished(phase::boundary(new.phase))
    });
    Step { answered, record: new }
}

pub(super) fn report_update(old: &Record, outcome: Outcome) -> Step {
    let mut new = spent(old);
    let answered = outcome.without_work().unwrap_or_else(|| {
        new.applied += 1;
        let last = new.applied == new.entries;
        if last {
            leave_updates(&mut new);
        }
        more_or_finished(last)
    });
    Step { answered, record: new }
}

pub(super) fn report_rollback(old: &Record, outcome: Outcome) -> Step {
    let mut new = spent(old);
    let last = old.entries - 1;
    let answered = outcome.without_work().unwrap_or_else(|| {
        new.entries = last;
        new.attempted = old.attempted - 1;
        new.applied = old.applied.min(last);
        if last == 0 && old.phase == phase::UNDO {
            new.phase = phase::RECOVER_REMOVE;
        }
        more_or_finished(last == 0)
    });
    Step { answered, record: new }
}
