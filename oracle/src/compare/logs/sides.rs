//! The two sides: a case as it is run here, and another program that is started
//! with the name of a file and numbers.

use crate::program::Program;
use std::env;
use std::fs;
use std::io;
use std::path::PathBuf;
use std::process::{self, Command, ExitStatus, Stdio};

/// A program, a file's bytes, and the words after its name.
#[derive(Clone, Debug, PartialEq, Eq)]
pub struct Case {
    pub program: Program,
    pub bytes: Vec<u8>,
    pub words: Vec<String>,
}

impl Case {
    /// What is written here, or what is wrong with the words.
    pub fn text(&self) -> Result<String, String> {
        self.program.told(&self.words).map(|told| self.program.text(&self.bytes, &told))
    }
}

/// The other program, with a file of its own for a while.
pub struct Other {
    words: Vec<String>,
    file: PathBuf,
}

impl Other {
    pub fn new(words: &[String]) -> io::Result<Other> {
        let name = format!("oracle-logs-{}.log", process::id());
        let file = fs::canonicalize(env::temp_dir())?.join(name);
        Ok(Other { words: words.to_vec(), file })
    }

    /// Puts bytes in the file.
    pub fn keep(&self, bytes: &[u8]) -> io::Result<()> {
        fs::write(&self.file, bytes)
    }

    /// The file's name.
    pub fn file(&self) -> String {
        self.file.to_string_lossy().into_owned()
    }

    /// What the program answers to the file's name and these words.
    pub fn answer(&self, words: &[String]) -> io::Result<Theirs> {
        self.answer_to(&[&[self.file()], words].concat())
    }

    /// What it answers to these words alone.
    pub fn answer_to(&self, words: &[String]) -> io::Result<Theirs> {
        let mut command = Command::new(&self.words[0]);
        command.args(&self.words[1..]).args(words).stdin(Stdio::null());
        let output = command.output()?;
        Ok(Theirs { written: output.stdout, told: output.stderr, ended: output.status })
    }

    /// Whether the sides differ on a case.
    pub fn differs(&self, case: &Case) -> io::Result<bool> {
        self.keep(&case.bytes)?;
        Ok(!self.answer(&case.words)?.agrees(&case.text()))
    }
}

impl Drop for Other {
    fn drop(&mut self) {
        // There is no file where none was kept.
        let _ = fs::remove_file(&self.file);
    }
}

/// What the other program writes and tells, and how it ends.
pub struct Theirs {
    written: Vec<u8>,
    told: Vec<u8>,
    ended: ExitStatus,
}

impl Theirs {
    /// Whether it writes what is written here, or tells as here that words are
    /// wrong. The page says nothing of the status then: a program may have none
    /// to give.
    pub fn agrees(&self, here: &Result<String, String>) -> bool {
        match here {
            Ok(text) => self.ended.success() && self.written == text.as_bytes(),
            Err(_) => self.written.is_empty() && !self.told.is_empty(),
        }
    }

    pub fn text(&self) -> String {
        format!(
            "{}(on standard error: {:?}; it ended with {})",
            String::from_utf8_lossy(&self.written),
            String::from_utf8_lossy(&self.told),
            self.ended
        )
    }
}
