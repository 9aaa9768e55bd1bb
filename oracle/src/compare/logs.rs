//! Comparing programs that are given input logs: the same logs here and by another
//! program.
//!
//! The fixed recordings come first, then the random one of each seed, each with
//! several rows of words; then words that are wrong. The other program is started
//! anew for each, with the file's name and the words after its own. It must write,
//! byte for byte, what is written here; where words are wrong it must write
//! nothing, and tell why on standard error.

mod report;
pub mod shrink;
mod sides;
mod tickets;
mod wrong;

use crate::program::{Program, Told};
use crate::recording::{fixed, seeded, Recording};
pub(crate) use sides::Case;
use sides::Other;
use std::io::{self, Write};

/// One log in so many is run with each number of words left out.
const SHORTENED: u64 = 8;

/// Which recordings are run, and by which other program.
pub struct Plan<'a> {
    pub first_seed: u64,
    pub seeds: u64,
    pub other: &'a [String],
}

/// A program that is compared, and what was met of it so far.
pub trait Subject {
    fn program(&self) -> Program;

    /// The rows of words after the file's name with which a recording is run.
    fn rows(&self, recording: &Recording) -> Vec<Vec<String>>;

    /// What is written here of a file's bytes; what it meets is counted.
    fn text(&mut self, bytes: &[u8], told: &Told) -> String;

    /// Counts a recording on which both sides agreed.
    fn add(&mut self, _recording: &Recording) {}

    /// How much was compared, in words.
    fn amounts(&self) -> String;

    /// What was met, in tables.
    fn tables(&self) -> String;
}

struct Comparison<'a> {
    subject: &'a mut dyn Subject,
    other: Other,
    output: &'a mut dyn Write,
    logs: u64,
    runs: u64,
}

/// Runs all recordings of a plan on both sides; false at the first difference.
pub fn compare(plan: &Plan, subject: &mut dyn Subject, output: &mut dyn Write) -> io::Result<bool> {
    let other = Other::new(plan.other)?;
    let mut comparison = Comparison { subject, other, output, logs: 0, runs: 0 };
    for (name, recording) in fixed::all() {
        if !comparison.same(&name, &recording)? {
            return Ok(false);
        }
    }
    let fixed = comparison.logs;
    for seed in (0..plan.seeds).map(|at| plan.first_seed.wrapping_add(at)) {
        if !comparison.same(&format!("seed {}", seed), &seeded(seed))? {
            return Ok(false);
        }
    }
    match comparison.words_told()? {
        Some(words) => comparison.tell(plan, fixed, words)?,
        None => return Ok(false),
    }
    Ok(true)
}

impl Comparison<'_> {
    /// Whether both sides write the same on a recording; else a report of it.
    fn same(&mut self, name: &str, recording: &Recording) -> io::Result<bool> {
        self.other.keep(&recording.bytes)?;
        for words in self.rows(recording) {
            let program = self.subject.program();
            let told = program.told(&words).expect("words that are numbers");
            let text = self.subject.text(&recording.bytes, &told);
            if !self.other.answer(&words)?.agrees(&Ok(text)) {
                writeln!(self.output, "{}: the two sides differ; looking for a smaller log", name)?;
                self.output.flush()?;
                let case = Case { program, bytes: recording.bytes.clone(), words };
                report::tell(case, &self.other, self.output)?;
                return Ok(false);
            }
            self.runs += 1;
        }
        self.logs += 1;
        self.subject.add(recording);
        Ok(true)
    }

    /// The subject's rows of words, and at times those with fewer numbers.
    fn rows(&self, recording: &Recording) -> Vec<Vec<String>> {
        let mut rows = self.subject.rows(recording);
        if self.logs % SHORTENED == 0 {
            let words = recording.words();
            rows.extend((0..words.len()).map(|count| words[..count].to_vec()));
        }
        rows
    }

    /// How many rows of words were tried that are wrong, or only just right, if
    /// the sides agree on each.
    fn words_told(&mut self) -> io::Result<Option<u64>> {
        wrong::all_told(self.subject.program(), &self.other, self.output)
    }

    fn tell(&mut self, plan: &Plan, fixed: u64, words: u64) -> io::Result<()> {
        write!(
            self.output,
            "no difference: {} logs ({} fixed, {} seeds from {}), {}, {} runs, and {} with other \
             words\n{}",
            self.logs,
            fixed,
            plan.seeds,
            plan.first_seed,
            self.subject.amounts(),
            self.runs,
            words,
            self.subject.tables()
        )
    }
}
