//! The two sides of a comparison: a script played here, and by a program that
//! is given it on its standard input.

use crate::script::{Made, Player, Reply};
use std::io::{self, Read, Write};
use std::process::{Command, ExitStatus, Stdio};
use std::thread;

/// What is written here, with the script's line that each line comes from.
pub struct Ours {
    pub lines: Vec<String>,
    pub from: Vec<usize>,
    pub made: Vec<Made>,
    pub bad: u64,
    pub shows: u64,
}

/// What the other program writes, and how it ends.
pub struct Theirs {
    written: Vec<u8>,
    ended: ExitStatus,
}

pub fn ours(script: &[u8]) -> Ours {
    let mut player = Player::new();
    let mut said = Ours { lines: vec![], from: vec![], made: vec![], bad: 0, shows: 0 };
    for (at, line) in super::lines(script).iter().enumerate() {
        let reply = player.hear(line);
        match &reply {
            Reply::Bad(_) => said.bad += 1,
            Reply::Shown(_) => said.shows += 1,
            _ => {}
        }
        let text = match reply {
            Reply::Answered(made) => {
                let text = made.text();
                said.made.push(made);
                vec![text]
            }
            other => other.text(),
        };
        said.from.extend(text.iter().map(|_| at));
        said.lines.extend(text);
    }
    said
}

/// Starts the program and gives it the script from a thread of its own, so
/// that neither waits for the other. A program that stops reading is no error
/// here: what it wrote will differ.
pub fn theirs(driver: &[String], script: &[u8]) -> io::Result<Theirs> {
    let mut command = Command::new(&driver[0]);
    command.args(&driver[1..]).stdin(Stdio::piped()).stdout(Stdio::piped());
    let mut child = command.spawn()?;
    let (stdin, stdout) = (child.stdin.take(), child.stdout.take());
    let script = script.to_vec();
    let writer = thread::spawn(move || stdin.map(|mut stdin| stdin.write_all(&script)));
    let mut written = Vec::new();
    if let Some(mut stdout) = stdout {
        stdout.read_to_end(&mut written)?;
    }
    let _ = writer.join();
    Ok(Theirs { written, ended: child.wait()? })
}

impl Theirs {
    pub fn agrees(&self, here: &Ours) -> bool {
        let mut wanted = here.lines.join("\n");
        if !here.lines.is_empty() {
            wanted.push('\n');
        }
        self.ended.success() && self.written == wanted.as_bytes()
    }

    /// The first line of the answers that is not the same on both sides.
    pub fn first_difference(&self, here: &Ours) -> Option<usize> {
        let there: Vec<&[u8]> = super::lines(&self.written);
        let most = here.lines.len().max(there.len());
        (0..most)
            .find(|at| here.lines.get(*at).map(|line| line.as_bytes()) != there.get(*at).copied())
    }

    /// What was written, and how the program ended where that was not well.
    pub fn text(&self) -> String {
        let mut text = String::from_utf8_lossy(&self.written).into_owned();
        if text.ends_with('\n') {
            text.pop();
        } else if !text.is_empty() {
            text.push_str("(no newline)");
        }
        if !self.ended.success() {
            text.push_str(&format!("\n(the driver ended with {})", self.ended));
        }
        text
    }
}
