//! The table of calls: the word of each in a script, the kind of its event,
//! what it is lent, its own refusals in their order, and how it answers.
//!
//! Written from documents 01 and 02 and the page on the driver's script alone.

use crate::answer::{Answer, Refusal};
use crate::place::Place;
use Family::{Act, Ask, Report};
use Place::{Accepted, Candidate, Exchange, Groups, Recovery, Status, Table, Tails};
use Refusal::*;

/// The calls, in the order of the table.
#[derive(Clone, Copy, Debug, PartialEq, Eq, PartialOrd, Ord)]
pub enum Name {
    Open,
    Begin,
    BeginStructural,
    AskStructure,
    ReportStructure,
    AskUpdate,
    ReportUpdate,
    AskRollback,
    ReportRollback,
    Edit,
    Commit,
    Recover,
    RecoverRetained,
    Refresh,
    Stamp,
    Check,
    Link,
    Initialize,
    Cancel,
    AddTail,
    RemoveTail,
    FindTail,
    MoveTail,
    FindStruct,
    MoveStruct,
}

/// How a call answers where it is not refused.
#[derive(Clone, Copy, Debug, PartialEq, Eq)]
pub enum Family {
    /// Done.
    Act,
    /// Granted.
    Ask,
    /// Taken.
    Report,
}

/// A row of the table.
pub struct About {
    pub name: Name,
    pub word: &'static str,
    /// The kind of its event; none where it is not recorded.
    pub kind: Option<u64>,
    pub lent: &'static [Place],
    /// Its own refusals: those that come after 6 and 7 and before 12.
    pub refusals: &'static [Refusal],
    pub family: Family,
}

impl Name {
    pub fn about(self) -> &'static About {
        &CALLS[self as usize]
    }

    pub fn word(self) -> &'static str {
        self.about().word
    }
}

impl About {
    /// Whether it is an ask or a report.
    pub fn is_step(&self) -> bool {
        self.family != Family::Act
    }

    /// The answers that the documents allow it.
    pub fn answers(&self) -> Vec<Answer> {
        let common = [
            (Refusal::BadArea, self.kind.is_some() || !self.lent.is_empty()),
            (Refusal::Damaged, self.name != Name::Open),
            (Refusal::LogFull, self.kind.is_some()),
        ];
        let common = common.iter().filter(|(_, given)| *given).map(|(refusal, _)| refusal);
        let refusals = common.chain(self.refusals).map(|refusal| Answer::Refused(*refusal));
        let performed = Answer::PERFORMED.into_iter().filter(|answer| match self.family {
            Family::Act => *answer == Answer::Done,
            Family::Ask => answer.granted(),
            Family::Report => answer.taken(),
        });
        refusals.chain(performed).collect()
    }
}

const fn row(
    name: Name,
    word: &'static str,
    kind: Option<u64>,
    lent: &'static [Place],
    refusals: &'static [Refusal],
    family: Family,
) -> About {
    About { name, word, kind, lent, refusals, family }
}

/// What several rows share.
const BEGIN: &[Place] = &[Candidate, Recovery, Table];
const BEGINNING: &[Refusal] = &[Pending, Capacity, LongCandidate, LongRecovery, TooMany];
const BOTH: &[Place] = &[Candidate, Recovery];
const REPORTING: &[Refusal] = &[Stale, LongCandidate, LongRecovery];
const EDITING: &[Refusal] = &[Idle, LongCandidate, LongRecovery];
const ENDED: &[Place] = &[Accepted, Exchange];
const RETAINED: &[Place] = &[Accepted, Recovery, Exchange];
const REFRESHING: &[Refusal] = &[Pending, Capacity, LongSnapshot];
const IDS: &[Place] = &[Groups, Status];
const MOVING: &[Refusal] = &[NotPassed, Absent, GoesBack];

/// The table of calls.
pub static CALLS: [About; 25] = [
    row(Name::Open, "open", None, &[Accepted], &[LongSnapshot], Act),
    row(Name::Begin, "begin", Some(1), BEGIN, BEGINNING, Act),
    row(Name::BeginStructural, "begin-structural", Some(2), BEGIN, BEGINNING, Act),
    row(Name::AskStructure, "ask-structure", Some(3), &[], &[NotReady, Worn], Ask),
    row(Name::ReportStructure, "report-structure", Some(4), BOTH, REPORTING, Report),
    row(Name::AskUpdate, "ask-update", Some(5), &[], &[Recovering, Worn], Ask),
    row(Name::ReportUpdate, "report-update", Some(6), &[Table], &[Stale], Report),
    row(Name::AskRollback, "ask-rollback", Some(7), &[], &[Worn], Ask),
    row(Name::ReportRollback, "report-rollback", Some(8), &[Table], &[Stale], Report),
    row(Name::Edit, "edit", None, BOTH, EDITING, Act),
    row(Name::Commit, "commit", Some(9), &[Accepted, Candidate], &[Idle, NotReady], Act),
    row(Name::Recover, "recover", Some(10), ENDED, &[Idle, NotReady, LongSnapshot], Act),
    row(Name::RecoverRetained, "recover-retained", Some(11), RETAINED, &[Idle, NotReady], Act),
    row(Name::Refresh, "refresh", Some(12), ENDED, REFRESHING, Act),
    row(Name::Stamp, "stamp", None, &[], &[Pending], Act),
    row(Name::Check, "check", None, &[], &[], Act),
    row(Name::Link, "link", None, IDS, &[NoStatus], Act),
    row(Name::Initialize, "initialize", None, IDS, &[NoStatus], Act),
    row(Name::Cancel, "cancel", None, IDS, &[NoStatus], Act),
    row(Name::AddTail, "add-tail", None, &[Tails], &[Twice, TableFull], Act),
    row(Name::RemoveTail, "remove-tail", None, &[Tails], &[Absent], Act),
    row(Name::FindTail, "find-tail", None, &[Tails], &[NotPassed], Act),
    row(Name::MoveTail, "move-tail", None, &[Tails], MOVING, Act),
    row(Name::FindStruct, "find-struct", None, &[Tails], &[NotPassed], Act),
    row(Name::MoveStruct, "move-struct", None, &[Tails], MOVING, Act),
];
