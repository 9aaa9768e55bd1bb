//! Auditing an input log: what an auditor asks of the record after the first 0, 1,
//! 2 and so on of its events, and the program that writes the answers.
//!
//! Written from documents 01 and 02 and the page on the driver's script alone.
//! The record is the model's own: the calls are run on it one by one, and a
//! question whether a call is allowed is answered by making the call on a copy.

use crate::answer::Answer;
use crate::line::join;
use crate::model::{Call, Record, Work};
use crate::program::{opened, Told, Why};
use crate::replay::{replay, run, Ended};
use crate::sizes::ROOM_MOST;

/// What is answered of one record.
#[derive(Clone, Copy, Debug, PartialEq, Eq)]
pub struct Answers {
    pub phase: u64,
    /// Whether committing would answer 0.
    pub commit: bool,
    /// Whether recovering from the retained payload would.
    pub recovery: bool,
    pub asking: Option<Work>,
    pub revision: u64,
}

/// What was audited: the answers after each beginning of the log, the one without
/// events first, and why there are no more; there are none where it is refused.
#[derive(Clone, Debug, PartialEq, Eq)]
pub struct Audited {
    pub answers: Vec<Answers>,
    /// How many of the events were refused.
    pub refused: u64,
    pub why: Why,
}

impl Answers {
    /// How many questions they answer.
    pub const QUESTIONS: u64 = 5;

    pub fn of(record: &Record) -> Answers {
        let allows = |call: Call| run(&mut record.clone(), &call) == Answer::Done;
        Answers {
            phase: record.phase,
            commit: allows(Call::Commit),
            recovery: allows(Call::RecoverRetained),
            asking: record.due(),
            revision: record.revision,
        }
    }

    pub fn numbers(&self) -> [u64; Answers::QUESTIONS as usize] {
        let asking = Work::number_of(self.asking);
        [self.phase, u64::from(self.commit), u64::from(self.recovery), asking, self.revision]
    }
}

/// Opens a record and audits the log in a file's bytes.
pub fn play(bytes: &[u8], told: &Told) -> Audited {
    let (record, words) = opened(bytes, told);
    match words {
        Ok(words) => one_by_one(&words, record),
        Err(refusal) => Audited { answers: vec![], refused: 0, why: Why::Refused(refusal) },
    }
}

/// Asks of a record, then runs the next event on it, until no other can be run.
fn one_by_one(words: &[u64], mut record: Record) -> Audited {
    let mut numbers = [0; ROOM_MOST as usize];
    let mut answers = Vec::new();
    let mut ran = 0;
    let why = loop {
        let asked = Answers::of(&record);
        let ended = replay(words, ran, &mut record, &mut numbers, 1);
        if let Ended::Refused(refusal) = ended {
            break Why::Refused(refusal);
        }
        answers.push(asked);
        match ended {
            Ended::Bad(_) => break Why::Bad,
            Ended::Ran(0) => break Why::AllRan,
            _ => ran += 1,
        }
    };
    let performed = Answer::PERFORMED.map(Answer::number);
    let refused = numbers.iter().filter(|number| !performed.contains(number)).count();
    Audited { answers, refused: refused as u64, why }
}

impl Audited {
    /// What the program writes.
    pub fn text(&self) -> String {
        let mut lines: Vec<String> = Vec::new();
        for (events, answers) in self.answers.iter().enumerate() {
            lines.push(format!("{} {}\n", events, join(&answers.numbers())));
        }
        let ran = self.answers.len().saturating_sub(1);
        lines.push(self.why.line(ran));
        lines.concat()
    }
}
