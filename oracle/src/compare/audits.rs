//! Comparing audits: what is met of the program that audits an input log, phase by
//! phase.
//!
//! Written from documents 01 and 02 alone.

mod columns;

use super::logs::Subject;
use crate::answer::{Answer, Refusal};
use crate::audit::{self, Answers};
use crate::model::phase;
use crate::program::{Program, Told};
use crate::recording::Recording;
use crate::tally::Table;
use columns::{allowed, filled, Column};

/// The numbers by which an audit can end.
fn endings() -> [u64; 5] {
    let refusals = [Refusal::BadArea, Refusal::Damaged, Refusal::LongSnapshot, Refusal::BadEvent];
    let [size, head, opening, event] = refusals.map(|refusal| refusal as u64);
    [Answer::Done.number(), size, head, opening, event]
}

/// What was met of audits so far.
pub struct Totals {
    lines: u64,
    /// Events that were refused.
    refused: u64,
    /// Phases by the other answers.
    pub phases: Table<u64, Column>,
    /// Runs by their ends.
    pub ends: Table<&'static str, u64>,
}

impl Default for Totals {
    fn default() -> Totals {
        let rows = (0..phase::COUNT).map(|phase| (phase, allowed(phase))).collect();
        let ends = Table::new("ended", vec![("runs", endings().into_iter().collect())]);
        Totals { lines: 0, refused: 0, phases: Table::new("phase", rows), ends }
    }
}

impl Subject for Totals {
    fn program(&self) -> Program {
        Program::Audit
    }

    fn rows(&self, recording: &Recording) -> Vec<Vec<String>> {
        vec![recording.words()]
    }

    fn text(&mut self, bytes: &[u8], told: &Told) -> String {
        let audited = audit::play(bytes, told);
        for answers in &audited.answers {
            for column in filled(answers) {
                self.phases.count(answers.phase, column);
            }
        }
        self.lines += audited.answers.len() as u64;
        self.refused += audited.refused;
        self.ends.count("runs", audited.why.number());
        audited.text()
    }

    fn amounts(&self) -> String {
        let questions = Answers::QUESTIONS * self.lines;
        format!("{} lines, {} questions, {} events refused", self.lines, questions, self.refused)
    }

    fn tables(&self) -> String {
        let (phases, ends) = (&self.phases, &self.ends);
        [phases.grid(), phases.faults_told(), ends.grid(), ends.faults_told()].concat()
    }
}
