//! The calls with what each is given: payloads by their lengths, and pairs by how
//! many actions they are. What is copied of them is given beside the call.
//!
//! Written from documents 01 and 02 alone.

use super::{About, Claim, Name, Opening, Outcome, Record, Tail, Ticket, Work};

/// The lengths of a candidate payload and of a recovery payload.
#[derive(Clone, Copy, Debug, PartialEq, Eq)]
pub struct Lengths {
    pub candidate: u64,
    pub recovery: u64,
}

/// What a status call does to its id.
#[derive(Clone, Copy, Debug, PartialEq, Eq)]
pub enum Mark {
    Link { domain: bool },
    Initialize,
    Cancel,
}

#[derive(Clone, Copy, Debug, PartialEq, Eq)]
pub enum Call {
    Open { opening: Opening, length: u64 },
    Begin { structural: bool, lengths: Lengths, actions: u64 },
    Ask(Work),
    ReportStructure { ticket: u64, outcome: Outcome, lengths: Lengths },
    ReportUpdate { ticket: u64, outcome: Outcome },
    ReportRollback { ticket: u64, outcome: Outcome },
    Edit(Lengths),
    Commit,
    Recover { length: u64 },
    RecoverRetained,
    Refresh { length: u64 },
    Stamp { domain: u64 },
    Check(Claim),
    Status { id: u64, mark: Mark },
    Tail(Tail),
}

impl Call {
    pub fn name(&self) -> Name {
        match self {
            Call::Open { .. } => Name::Open,
            Call::Begin { structural: false, .. } => Name::Begin,
            Call::Begin { structural: true, .. } => Name::BeginStructural,
            Call::Ask(Work::Structure) => Name::AskStructure,
            Call::ReportStructure { .. } => Name::ReportStructure,
            Call::Ask(Work::Update) => Name::AskUpdate,
            Call::ReportUpdate { .. } => Name::ReportUpdate,
            Call::Ask(Work::Rollback) => Name::AskRollback,
            Call::ReportRollback { .. } => Name::ReportRollback,
            Call::Edit(_) => Name::Edit,
            Call::Commit => Name::Commit,
            Call::Recover { .. } => Name::Recover,
            Call::RecoverRetained => Name::RecoverRetained,
            Call::Refresh { .. } => Name::Refresh,
            Call::Stamp { .. } => Name::Stamp,
            Call::Check(_) => Name::Check,
            Call::Status { mark: Mark::Link { .. }, .. } => Name::Link,
            Call::Status { mark: Mark::Initialize, .. } => Name::Initialize,
            Call::Status { mark: Mark::Cancel, .. } => Name::Cancel,
            Call::Tail(tail) => tail.name(),
        }
    }

    pub fn about(&self) -> &'static About {
        self.name().about()
    }

    /// The candidate and the recovery payload that a call is given.
    pub fn lengths(&self) -> Lengths {
        match self {
            Call::Begin { lengths, .. }
            | Call::ReportStructure { lengths, .. }
            | Call::Edit(lengths) => *lengths,
            _ => unreachable!("no other call is given both"),
        }
    }

    /// The snapshot that a call is given.
    pub fn snapshot(&self) -> u64 {
        match self {
            Call::Open { length, .. } | Call::Recover { length } | Call::Refresh { length } => {
                *length
            }
            _ => unreachable!("no other call is given one"),
        }
    }

    /// How many actions a begin is given.
    pub fn actions(&self) -> u64 {
        match self {
            Call::Begin { actions, .. } => *actions,
            _ => unreachable!("no other call is given any"),
        }
    }

    /// The ticket that a report is given.
    pub fn ticket(&self) -> Option<Ticket> {
        let (work, number) = match self {
            Call::ReportStructure { ticket, .. } => (Work::Structure, *ticket),
            Call::ReportUpdate { ticket, .. } => (Work::Update, *ticket),
            Call::ReportRollback { ticket, .. } => (Work::Rollback, *ticket),
            _ => return None,
        };
        Some(Ticket { work, number })
    }
}

impl Lengths {
    /// Both lengths move with their payloads.
    pub(super) fn store(self, record: &mut Record) {
        record.candidate = self.candidate;
        record.recovery = self.recovery;
    }
}
