//! The example: a node's reload as it was recorded, given up and taken back, and
//! a second one that goes through.
//!
//! A file was removed and its inode given to a new one, so that three tails are to
//! be changed: the settings' structure is taken down and mounted again, and each
//! action updates a tail. The third cannot, since the old file is still read.
//!
//! Written from documents 01 and 02 alone.

use super::story::{Story, LENGTH};
use super::Recording;
use crate::model::{Name, Opening, Outcome};

/// What is opened: the numbers of examples/reload.args, but for the portion.
const OPENING: Opening = Opening { revision: 7, serial: 40, replacements: 2 };

/// The code of the update that fails.
const STILL_READ: u64 = 5;

/// The recording of the example.
pub fn example() -> Recording {
    let mut story = Story::new(OPENING);
    goes_forward(&mut story);
    is_given_up(&mut story);
    is_taken_back(&mut story);
    goes_through(&mut story);
    story.recording()
}

/// Four steps of structure, of which mounting waits once; two updates are
/// done, and the third fails, then waits.
fn goes_forward(story: &mut Story) {
    story.begin(Name::BeginStructural, 3);
    story.structure(Outcome::Done);
    story.structure(Outcome::Done);
    story.structure(Outcome::Waiting);
    story.structure(Outcome::Done);
    story.structure(Outcome::Done);
    story.update(Outcome::Done);
    story.update(Outcome::Done);
    story.update(Outcome::Failed(STILL_READ));
    story.update(Outcome::Waiting);
}

/// A report comes late, with a ticket that was spent; neither a commit nor
/// a refresh can be made. What was begun is undone from the last on, the
/// action that waits too.
fn is_given_up(story: &mut Story) {
    story.report(Name::ReportUpdate, story.ticket - 1, Outcome::Done);
    story.tell(Name::Commit, &[]);
    story.replace(Name::Refresh, LENGTH);
    story.undo(Outcome::Done);
    story.undo(Outcome::Waiting);
    story.undo(Outcome::Done);
    story.undo(Outcome::Done);
    story.tell(Name::AskUpdate, &[]);
}

/// The structure is restored, and the old settings are recovered.
fn is_taken_back(story: &mut Story) {
    story.tell(Name::RecoverRetained, &[]);
    for _ in 0..4 {
        story.structure(Outcome::Done);
    }
    story.tell(Name::AskStructure, &[]);
    story.tell(Name::RecoverRetained, &[]);
}

/// A reload of two updates alone, committed too early first.
fn goes_through(story: &mut Story) {
    story.begin(Name::Begin, 2);
    story.update(Outcome::Done);
    story.tell(Name::Commit, &[]);
    story.update(Outcome::Done);
    story.tell(Name::Commit, &[]);
}
