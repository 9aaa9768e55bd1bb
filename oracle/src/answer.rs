//! The answers: their numbers, and which of them are refusals, are granted,
//! are taken and are written to the log.
//!
//! Written from documents 01 and 02 alone.

/// Why a call is refused, with the number of each refusal.
#[derive(Clone, Copy, Debug, PartialEq, Eq)]
pub enum Refusal {
    Pending = 1,
    Idle = 2,
    Capacity = 3,
    NotReady = 4,
    Recovering = 5,
    BadArea = 6,
    Damaged = 7,
    TooMany = 9,
    Stale = 10,
    Worn = 11,
    LogFull = 12,
    NoStatus = 13,
    LongCandidate = 14,
    LongRecovery = 15,
    LongSnapshot = 16,
    BadEvent = 17,
    TableFull = 31,
    Twice = 32,
    GoesBack = 33,
    Absent = 34,
    NotPassed = 35,
}

impl Refusal {
    /// Walks a row of tests: the first that holds gives its refusal.
    pub fn first(row: &[(bool, Refusal)]) -> Result<(), Refusal> {
        match row.iter().find(|(holds, _)| *holds) {
            Some((_, refusal)) => Err(*refusal),
            None => Ok(()),
        }
    }
}

/// What a call answers, apart from the values that go with it.
#[derive(Clone, Copy, Debug, PartialEq, Eq)]
pub enum Answer {
    Done,
    Refused(Refusal),
    Ticket,
    Waiting,
    Failed,
    More,
    Finished,
}

impl Answer {
    /// Every answer that is no refusal.
    pub const PERFORMED: [Answer; 6] = [
        Answer::Done,
        Answer::Ticket,
        Answer::Waiting,
        Answer::Failed,
        Answer::More,
        Answer::Finished,
    ];

    pub fn number(self) -> u64 {
        match self {
            Answer::Done => 0,
            Answer::Refused(refusal) => refusal as u64,
            Answer::Ticket => 20,
            Answer::Waiting => 21,
            Answer::Failed => 22,
            Answer::More => 23,
            Answer::Finished => 24,
        }
    }

    pub fn refused(self) -> bool {
        matches!(self, Answer::Refused(_))
    }

    /// What an ask answers that is not refused.
    pub fn granted(self) -> bool {
        matches!(self, Answer::Ticket | Answer::Finished)
    }

    /// What a report answers that is not refused.
    pub fn taken(self) -> bool {
        matches!(self, Answer::Waiting | Answer::Failed | Answer::More | Answer::Finished)
    }

    /// Whether an event with this answer is written, `step` telling an ask or
    /// a report from the other recorded calls. Decision: a refusal of an ask
    /// or report that is not written asks for no room, and is therefore given
    /// even where the log is full.
    pub fn written(self, step: bool) -> bool {
        match self {
            Answer::Refused(Refusal::NotReady | Refusal::Recovering) => step,
            answer => !answer.refused(),
        }
    }

    pub fn bare(self) -> Answered {
        self.with(&[])
    }

    pub fn with(self, values: &[u64]) -> Answered {
        let mut kept = [0; Answered::VALUES];
        kept[..values.len()].copy_from_slice(values);
        Answered { answer: self, values: kept, count: values.len() }
    }
}

/// An answer with its values.
#[derive(Clone, Copy, Debug, PartialEq, Eq)]
pub struct Answered {
    pub answer: Answer,
    values: [u64; Answered::VALUES],
    count: usize,
}

impl Answered {
    /// The most values of an answer.
    const VALUES: usize = 3;

    pub fn values(&self) -> &[u64] {
        &self.values[..self.count]
    }
}

impl From<Refusal> for Answered {
    fn from(refusal: Refusal) -> Answered {
        Answer::Refused(refusal).bare()
    }
}
