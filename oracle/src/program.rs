//! The programs that are given the name of a file with an input log, and numbers:
//! which there are, and what they share.
//!
//! Written from documents 01 and 02 and the page on the driver's script alone.

mod told;
mod why;

pub use told::Told;
pub use why::Why;

use crate::answer::Refusal;
use crate::audit;
use crate::model::{self, Call, Record};
use crate::replay::program as replay;
use crate::sizes::{FILE_MOST, WORD_BYTES};
use std::fs::File;
use std::io::{self, Read};

#[derive(Clone, Copy, Debug, PartialEq, Eq)]
pub enum Program {
    Replay,
    Audit,
}

impl Program {
    pub const ALL: [Program; 2] = [Program::Replay, Program::Audit];

    pub fn word(self) -> &'static str {
        match self {
            Program::Replay => "replay",
            Program::Audit => "audit",
        }
    }

    /// The most numbers that it takes after the file's name: an audit has no
    /// portions.
    pub fn numbers(self) -> usize {
        match self {
            Program::Replay => Told::NUMBERS,
            Program::Audit => Told::NUMBERS - 1,
        }
    }

    /// What these words after the file's name say, or what is wrong with them.
    pub fn told<Word: AsRef<[u8]>>(self, words: &[Word]) -> Result<Told, String> {
        if words.len() > self.numbers() {
            return Err("there is a word too many".to_string());
        }
        Told::of_words(words)
    }

    /// What it writes of a file's bytes.
    pub fn text(self, bytes: &[u8], told: &Told) -> String {
        match self {
            Program::Replay => replay::play(bytes, told).text(),
            Program::Audit => audit::play(bytes, told).text(),
        }
    }

    /// What it writes when it is given these words, or what is wrong.
    pub fn run(self, words: &[String]) -> Result<String, String> {
        let (file, numbers) = words.split_first().ok_or("there is no word for the file")?;
        let told = self.told(numbers)?;
        let bytes =
            bytes_of(file).map_err(|error| format!("{} cannot be read: {}", file, error))?;
        Ok(self.text(&bytes, &told))
    }
}

/// The bytes of a file, no more of them than are needed to see that they are
/// too many.
fn bytes_of(file: &str) -> io::Result<Vec<u8>> {
    let mut bytes = Vec::new();
    File::open(file)?.take(FILE_MOST + 1).read_to_end(&mut bytes)?;
    Ok(bytes)
}

/// The words of a file's bytes, if they are not too many and none is cut short.
pub fn words_of(bytes: &[u8]) -> Option<Vec<u64>> {
    let words = bytes.chunks_exact(WORD_BYTES as usize);
    if bytes.len() as u64 > FILE_MOST || !words.remainder().is_empty() {
        return None;
    }
    let word = |bytes: &[u8]| u64::from_le_bytes(bytes.try_into().expect("eight bytes"));
    Some(words.map(word).collect())
}

/// The record that is opened, and the words of a file's bytes or why there is
/// nothing to run. The opening is looked at first.
pub fn opened(bytes: &[u8], told: &Told) -> (Record, Result<Vec<u64>, Refusal>) {
    let opening = Call::Open { opening: told.opening, length: told.length };
    match model::step(&Record::default(), &opening) {
        Ok(step) => (step.record, words_of(bytes).ok_or(Refusal::BadArea)),
        Err(refusal) => (Record::default(), Err(refusal)),
    }
}
