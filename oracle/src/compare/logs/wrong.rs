//! Words that are wrong, and files that cannot be read.
//!
//! Written from the page on the driver's script alone.

use super::sides::{Case, Other};
use crate::program::Program;
use crate::recording;
use crate::sizes::TOP;
use std::io::{self, Write};

/// Words that are no number.
const NO_NUMBERS: [&str; 16] = [
    "",
    " ",
    "x",
    "1x",
    "x1",
    "-1",
    "-0",
    "+1",
    " 1",
    "1 ",
    "1.0",
    "0x1",
    "1_000",
    "1\n",
    "18446744073709551616",
    "99999999999999999999999999999999999999999",
];

/// Words that are only just numbers.
const NUMBERS: [&str; 3] =
    ["007", "00000000000000000000000000000000000000002", "0000000000018446744073709551615"];

/// Words after the file's name: some wrong, some only just right.
fn words(program: Program) -> Vec<Vec<String>> {
    let (most, top) = (program.numbers(), TOP.to_string());
    let ones = |count: usize| vec!["1".to_string(); count];
    let mut all = vec![ones(most + 1), ones(most + 2)];
    for word in NO_NUMBERS.into_iter().chain(NUMBERS).chain(["0", "1", &top]) {
        for at in 0..most {
            let mut words = ones(at + 1);
            words[at] = word.to_string();
            all.push(words.clone());
            words.resize(most, "1".to_string());
            all.push(words);
        }
    }
    all
}

/// How many rows of words were tried, if the other program tells of each wrong
/// word, of a missing file, of a folder in its place and of no words; else a
/// report.
pub fn all_told(
    program: Program,
    other: &Other,
    output: &mut dyn Write,
) -> io::Result<Option<u64>> {
    let bytes = recording::sound(1, 20).bytes;
    other.keep(&bytes)?;
    let mut rows: Vec<(Result<String, String>, Vec<String>)> = Vec::new();
    for words in words(program) {
        let case = Case { program, bytes: bytes.clone(), words };
        rows.push((case.text(), [&[other.file()], &case.words[..]].concat()));
    }
    let missing = format!("{}.missing", other.file());
    let folder = std::env::temp_dir().to_string_lossy().into_owned();
    for words in [vec![], vec![missing.clone()], vec![missing, "7".to_string()], vec![folder]] {
        rows.push((Err(String::new()), words));
    }
    for (here, words) in &rows {
        if !agreed(here, words, other, output)? {
            return Ok(None);
        }
    }
    Ok(Some(rows.len() as u64))
}

fn agreed(
    here: &Result<String, String>,
    words: &[String],
    other: &Other,
    output: &mut dyn Write,
) -> io::Result<bool> {
    let there = other.answer_to(words)?;
    if there.agrees(here) {
        return Ok(true);
    }
    writeln!(output, "the two sides differ on the words {:?}", words)?;
    match here {
        Ok(text) => writeln!(output, "the oracle writes:\n{}", text)?,
        Err(_) => writeln!(output, "they are to be told as wrong, nothing being written")?,
    }
    writeln!(output, "the program writes:\n{}", there.text())?;
    Ok(false)
}
