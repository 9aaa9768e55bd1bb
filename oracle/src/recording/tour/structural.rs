//! The tour's structural reloads.
//!
//! Written from documents 01 and 02 alone.

use super::Story;
use crate::input::TICKET;
use crate::model::Name::*;
use crate::model::Outcome;

/// The steps after a structural begin, of which the fifth is the update.
const STEPS: u64 = 6;
const UPDATE: u64 = 5;

/// The steps of structure that a rollback needs.
const BACK: u64 = 4;

/// A bit of a ticket that is looked at like the lower ones.
const HIGH: u64 = 1 << 32;

pub fn tell(story: &mut Story) {
    goes_through(story);
    has_no_actions(story);
    for steps in 0..=STEPS {
        is_taken_back(story, steps);
    }
    is_worn(story);
}

/// A structural reload goes through, a ticket being replaced and a report coming
/// twice on the way.
fn goes_through(story: &mut Story) {
    story.begin(BeginStructural, 2);
    story.ask(AskStructure);
    story.ask(AskStructure);
    story.report(ReportStructure, story.ticket - 1, Outcome::Done);
    story.report(ReportStructure, story.ticket, Outcome::Done);
    story.report(ReportStructure, story.ticket, Outcome::Done);
    story.structure(Outcome::Waiting);
    story.structure(Outcome::Failed(9));
    for _ in 2..UPDATE {
        story.call(&[AskUpdate, Commit, RecoverRetained]);
        story.structure(Outcome::Done);
    }
    story.call(&[AskStructure, Commit]);
    story.update(Outcome::Done);
    story.update(Outcome::Failed(9));
    story.update(Outcome::Done);
    story.call(&[AskUpdate, Commit]);
    story.structure(Outcome::Done);
    story.call(&[AskStructure, AskUpdate, RecoverRetained, Commit]);
}

/// One without actions goes through, after reports that come by another name and
/// with another ticket.
fn has_no_actions(story: &mut Story) {
    goes_forward(story, 0, UPDATE - 1);
    story.call(&[Commit, AskUpdate]);
    story.ask(AskStructure);
    story.report(ReportUpdate, story.ticket, Outcome::Done);
    story.report(ReportRollback, story.ticket, Outcome::Done);
    story.report(ReportStructure, story.ticket ^ HIGH, Outcome::Done);
    story.report(ReportStructure, story.ticket, Outcome::Done);
    story.call(&[RecoverRetained, Commit]);
}

/// So many steps after a structural begin.
fn goes_forward(story: &mut Story, actions: u64, steps: u64) {
    story.begin(BeginStructural, actions);
    for step in 1..=steps {
        match step {
            UPDATE => story.update(Outcome::Done),
            _ => story.structure(Outcome::Done),
        }
    }
}

/// A structural reload is rolled back after so many steps.
fn is_taken_back(story: &mut Story, steps: u64) {
    goes_forward(story, 1, steps);
    match steps {
        UPDATE.. => story.undo(Outcome::Done),
        _ => story.call(&[AskRollback]),
    }
    for _ in 0..BACK {
        story.call(&[RecoverRetained]);
        story.ask(AskStructure);
        story.call(&[AskRollback]);
        story.report(ReportStructure, story.ticket, Outcome::Done);
    }
    story.call(&[AskStructure, Commit, RecoverRetained]);
}

/// The last ticket is that of the first of two updates.
fn is_worn(story: &mut Story) {
    goes_forward(story, 2, UPDATE);
    story.call(&[AskUpdate, AskRollback, AskStructure, Commit, RecoverRetained]);
    story.report(ReportUpdate, story.ticket, Outcome::Done);
    story.tell(Commit, &[(TICKET, 1)]);
    story.call(&[Commit]);
}
