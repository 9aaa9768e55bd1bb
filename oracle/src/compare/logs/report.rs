//! Showing a difference: the log made small, and what either side writes.

use super::shrink;
use super::sides::{Case, Other};
use crate::line::join;
use crate::sizes::{INPUT_EVENT, LOG_HEAD, WORD_BYTES};
use std::io::{self, Write};

/// Makes a case small and shows it.
pub fn tell(case: Case, other: &Other, output: &mut dyn Write) -> io::Result<()> {
    let (small, tries) = shrink::smallest(case, &mut |case| other.differs(case))?;
    writeln!(output, "the smallest log found after {} tries, {}:", tries, size(&small))?;
    for line in lines(&small.bytes) {
        writeln!(output, "  {}", line)?;
    }
    writeln!(output, "run with: {} FILE {}", small.program.word(), small.words.join(" "))?;
    match small.text() {
        Ok(text) => writeln!(output, "the oracle writes:\n{}", text.trim_end())?,
        Err(wrong) => writeln!(output, "the oracle writes nothing: {}", wrong)?,
    }
    other.keep(&small.bytes)?;
    writeln!(output, "the program writes:\n{}", other.answer(&small.words)?.text())
}

fn size(case: &Case) -> String {
    let bytes = case.bytes.len() as u64;
    format!("{} bytes, {} words", bytes, bytes / WORD_BYTES)
}

/// The words of a file, the head and each event on a line, without the zeros at
/// its end; and bytes that are no word.
fn lines(bytes: &[u8]) -> Vec<String> {
    let chunks = bytes.chunks_exact(WORD_BYTES as usize);
    let rest = chunks.remainder();
    let words: Vec<u64> = chunks
        .map(|bytes| u64::from_le_bytes(bytes.try_into().expect("the bytes of a word")))
        .collect();
    let head = words.len().min(LOG_HEAD as usize);
    let events: Vec<&[u64]> = words[head..].chunks(INPUT_EVENT as usize).collect();
    let zero = |event: &&[u64]| event.iter().all(|word| *word == 0);
    let shown = events.len() - events.iter().rev().take_while(|event| zero(event)).count();
    let mut lines = vec![join(&words[..head])];
    lines.extend(events[..shown].iter().map(|event| join(event)));
    if shown < events.len() {
        lines.push(format!("(and {} words of 0)", events[shown..].concat().len()));
    }
    if !rest.is_empty() {
        lines.push(format!("(and the bytes {:?})", rest));
    }
    lines
}
