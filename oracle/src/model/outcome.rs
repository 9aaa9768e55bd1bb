//! The outcomes of reports: their numbers, and which of them do work.
//!
//! Written from document 01 and the page on the driver's script alone.

use crate::answer::{Answer, Answered};

#[derive(Clone, Copy, Debug, PartialEq, Eq)]
pub enum Outcome {
    Waiting,
    Failed(u64),
    Done,
}

impl Outcome {
    /// The numbers of the outcomes in a script.
    pub const WAITING: u64 = 0;
    pub const FAILED: u64 = 1;
    pub const DONE: u64 = 2;
    /// The largest of them.
    pub const MOST: u64 = Outcome::DONE;

    pub fn of(number: u64, code: u64) -> Option<Outcome> {
        match number {
            Outcome::WAITING => Some(Outcome::Waiting),
            Outcome::FAILED => Some(Outcome::Failed(code)),
            Outcome::DONE => Some(Outcome::Done),
            _ => None,
        }
    }

    /// The answer of an outcome that does no work, and none of one that does.
    pub fn without_work(self) -> Option<Answered> {
        match self {
            Outcome::Waiting => Some(Answer::Waiting.bare()),
            Outcome::Failed(code) => Some(Answer::Failed.with(&[code])),
            Outcome::Done => None,
        }
    }
}
