//! Reading a script line by line and playing it.
//!
//! Written from the page on the driver's script alone. Decision: a comment is
//! a comment however long it is.

use crate::answer::Answered;
use crate::command;
use crate::driver::{Driver, Said};
use crate::model::{Name, Record};
use crate::sizes::LINE_MOST;
use crate::text::{answer_text, shown};
use std::io::{self, BufRead, Write};

/// A call that was made: its name, the record before it, and its answer.
pub struct Made {
    pub name: Name,
    pub before: Record,
    pub answered: Answered,
}

impl Made {
    pub fn text(&self) -> String {
        answer_text(&self.answered)
    }
}

/// What a line of a script led to.
pub enum Reply {
    Nothing,
    Bad(u64),
    Answered(Made),
    Shown(Vec<String>),
}

impl Reply {
    /// The lines that are written.
    pub fn text(self) -> Vec<String> {
        match self {
            Reply::Nothing => vec![],
            Reply::Bad(number) => vec![format!("? {}", number)],
            Reply::Answered(made) => vec![made.text()],
            Reply::Shown(lines) => lines,
        }
    }
}

/// Plays a script, a line at a time.
#[derive(Clone)]
pub struct Player {
    pub driver: Driver,
    lines: u64,
}

impl Player {
    pub fn new() -> Player {
        Player { driver: Driver::new(), lines: 0 }
    }

    pub fn hear(&mut self, line: &[u8]) -> Reply {
        self.lines += 1;
        if line.is_empty() || line[0] == b'#' {
            return Reply::Nothing;
        }
        let command = match command::command(line) {
            None => return Reply::Bad(self.lines),
            Some(command) => command,
        };
        let before = self.driver.record.clone();
        match self.driver.obey(command) {
            Said::Nothing => Reply::Nothing,
            Said::Answered(name, answered) => Reply::Answered(Made { name, before, answered }),
            Said::Show => Reply::Shown(shown(&self.driver)),
        }
    }
}

/// Reads one line without its newline into `line`, keeping no more bytes than
/// are needed to see that it is too long. False at the end of the script.
fn next_line(input: &mut dyn BufRead, line: &mut Vec<u8>) -> io::Result<bool> {
    line.clear();
    let mut any = false;
    loop {
        let piece = input.fill_buf()?;
        if piece.is_empty() {
            return Ok(any);
        }
        any = true;
        let end = piece.iter().position(|byte| *byte == b'\n');
        let part = &piece[..end.unwrap_or(piece.len())];
        let room = LINE_MOST as usize + 1 - line.len();
        line.extend_from_slice(&part[..part.len().min(room)]);
        let used = end.map_or(piece.len(), |at| at + 1);
        input.consume(used);
        if end.is_some() {
            return Ok(true);
        }
    }
}

/// Plays a whole script.
pub fn play(input: &mut dyn BufRead, output: &mut dyn Write) -> io::Result<()> {
    let mut player = Player::new();
    let mut line = Vec::new();
    while next_line(input, &mut line)? {
        for text in player.hear(&line).text() {
            writeln!(output, "{}", text)?;
        }
    }
    output.flush()
}
