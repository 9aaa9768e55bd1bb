//! Why a program ended, and the line that says so.
//!
//! Written from the page on the driver's script alone.

use crate::answer::{Answer, Refusal};

/// Why no more events were run.
#[derive(Clone, Copy, Debug, PartialEq, Eq)]
pub enum Why {
    AllRan,
    /// The next one is bad.
    Bad,
    /// The opening or the log is refused.
    Refused(Refusal),
}

impl Why {
    /// The number that the line begins with.
    pub fn number(self) -> u64 {
        match self {
            Why::AllRan => Answer::Done.number(),
            Why::Bad => Refusal::BadEvent as u64,
            Why::Refused(refusal) => refusal as u64,
        }
    }

    /// The line, after so many events.
    pub fn line(self, ran: usize) -> String {
        match self {
            Why::Refused(_) => format!("ended {}\n", self.number()),
            Why::AllRan | Why::Bad => format!("ended {} {}\n", self.number(), ran),
        }
    }
}
