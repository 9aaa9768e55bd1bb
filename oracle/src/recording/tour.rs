//! The tour: reloads that meet every phase, every due asking, a commit and a
//! recovery that are allowed and that are not, and most refusals. At its end no
//! serial is left to update or undo an action with, and an event is bad.
//!
//! Written from documents 01 and 02 alone.

mod structural;

use super::story::{Story, LENGTH};
use super::Recording;
use crate::input::{ACTIONS, CANDIDATE, RECOVERY};
use crate::model::Name::*;
use crate::model::{Opening, Outcome};
use crate::sizes::{AREA, MAX_ACTIONS, TOP};

/// The recording of the tour, opened so that its last ticket is the last that
/// there is.
pub fn tour() -> Recording {
    told(TOP - told(0).ticket).recording()
}

fn told(serial: u64) -> Story {
    let mut story = Story::new(Opening { revision: 7, serial, replacements: 2 });
    nothing_begun(&mut story);
    no_actions(&mut story);
    actions_alone(&mut story);
    structural::tell(&mut story);
    story
}

/// Idle, then idle and restoring, with begins and a refresh that are refused.
fn nothing_begun(story: &mut Story) {
    story.call(&[Commit, RecoverRetained, AskStructure, AskUpdate]);
    for (at, number) in [(ACTIONS, MAX_ACTIONS + 1), (CANDIDATE, AREA + 1), (RECOVERY, AREA + 1)] {
        story.tell(Begin, &[(at, number)]);
        story.tell(BeginStructural, &[(at, number)]);
    }
    story.replace(Refresh, AREA + 1);
    story.replace(Refresh, LENGTH);
    story.call(&[AskRollback, AskUpdate, Commit]);
    story.replace(Refresh, LENGTH);
}

/// Without actions: committed, recovered, rolled back and recovered.
fn no_actions(story: &mut Story) {
    story.begin(Begin, 0);
    story.begin(Begin, 1);
    story.begin(BeginStructural, 1);
    story.replace(Refresh, LENGTH);
    story.call(&[AskStructure, AskUpdate, Commit]);
    story.begin(Begin, 0);
    story.call(&[RecoverRetained]);
    story.begin(Begin, 0);
    story.call(&[AskRollback, Commit, AskUpdate]);
    story.replace(Recover, AREA + 1);
    story.replace(Recover, LENGTH);
}

/// Updates alone: one waits and is undone with the one before it, and a late
/// report comes in between; then all are done; then none is started.
fn actions_alone(story: &mut Story) {
    story.begin(Begin, 3);
    story.update(Outcome::Done);
    story.call(&[Commit, RecoverRetained]);
    story.update(Outcome::Waiting);
    story.ask(AskRollback);
    story.report(ReportUpdate, story.ticket - 1, Outcome::Done);
    story.report(ReportRollback, story.ticket, Outcome::Waiting);
    story.undo(Outcome::Failed(9));
    story.undo(Outcome::Done);
    story.call(&[Commit, RecoverRetained, AskUpdate]);
    story.undo(Outcome::Done);
    story.call(&[AskRollback, Commit, RecoverRetained]);
    story.begin(Begin, 2);
    story.update(Outcome::Done);
    story.update(Outcome::Done);
    story.call(&[AskUpdate, RecoverRetained, Commit]);
    story.begin(Begin, 2);
    story.call(&[AskRollback, RecoverRetained]);
}
