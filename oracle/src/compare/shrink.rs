//! Finding a small script on which two sides still differ: blocks of lines are
//! dropped, then single lines, then a record is put in place of the calls that
//! led to it, then numbers are made smaller, while a difference remains.

use crate::line;
use crate::script::Player;
use std::io;

/// Tells whether the two sides differ on a script.
pub type Differs<'a> = &'a mut dyn FnMut(&[u8]) -> io::Result<bool>;

/// So many scripts are tried at most.
const TRIES: u64 = 4000;

struct Shrinker<'a> {
    lines: Vec<Vec<u8>>,
    end: &'static [u8],
    differs: Differs<'a>,
    tries: u64,
}

/// A script that is no larger, on which the sides differ, and how many scripts
/// were tried. The difference is thought to be at the line `last`.
pub fn smallest(
    script: &[u8],
    last: Option<usize>,
    differs: Differs,
) -> io::Result<(Vec<u8>, u64)> {
    let lines: Vec<Vec<u8>> = super::lines(script).iter().map(|line| line.to_vec()).collect();
    let mut shrinker = Shrinker { lines: lines.clone(), end: b"\n", differs, tries: 0 };
    if !script.ends_with(b"\n") && !shrinker.take(lines)? {
        shrinker.end = b"";
    }
    if let Some(at) = last {
        let front = shrinker.lines[..=at].to_vec();
        shrinker.take(front)?;
    }
    shrinker.drop_lines()?;
    shrinker.place_record()?;
    shrinker.lower_numbers()?;
    shrinker.drop_lines()?;
    Ok((shrinker.joined(&shrinker.lines), shrinker.tries))
}

impl Shrinker<'_> {
    fn joined(&self, lines: &[Vec<u8>]) -> Vec<u8> {
        let mut script = lines.join(&b'\n');
        script.extend_from_slice(self.end);
        script
    }

    fn keeps(&mut self, script: &[u8]) -> io::Result<bool> {
        if self.tries >= TRIES {
            return Ok(false);
        }
        self.tries += 1;
        (self.differs)(script)
    }

    /// Goes on with these lines if the sides differ on them.
    fn take(&mut self, lines: Vec<Vec<u8>>) -> io::Result<bool> {
        let script = self.joined(&lines);
        let kept = self.keeps(&script)?;
        if kept {
            self.lines = lines;
        }
        Ok(kept)
    }

    /// Drops blocks of half the script, a quarter and so on down to a line,
    /// and single lines again until none can go.
    fn drop_lines(&mut self) -> io::Result<()> {
        let mut size = (self.lines.len() / 2).max(1);
        loop {
            let before = self.lines.len();
            let mut at = 0;
            while at < self.lines.len() {
                let end = (at + size).min(self.lines.len());
                let rest = [&self.lines[..at], &self.lines[end..]].concat();
                if !self.take(rest)? {
                    at = end;
                }
            }
            if size == 1 && self.lines.len() == before {
                return Ok(());
            }
            size = (size / 2).max(1);
        }
    }

    /// Puts the record that is there before one of the last calls in place by
    /// a line of its own, if that lets more lines go than it costs.
    fn place_record(&mut self) -> io::Result<()> {
        let calls: Vec<usize> =
            (1..self.lines.len()).rev().filter(|at| self.lines[*at] != b"show").take(3).collect();
        for at in calls {
            let before = self.lines.clone();
            let mut player = Player::new();
            for line in &before[..at] {
                player.hear(line);
            }
            let record = line::record(&player.driver.record).into_bytes();
            let placed = [&before[..at], &[record], &before[at..]].concat();
            if self.take(placed)? {
                self.drop_lines()?;
            }
            if self.lines.len() < before.len() {
                return Ok(());
            }
            self.lines = before;
        }
        Ok(())
    }

    fn lower_numbers(&mut self) -> io::Result<()> {
        for at in 0..self.lines.len() {
            let mut from = 0;
            while let Some((start, end)) = number_at(&self.lines[at], from) {
                let length = self.lines[at].len();
                self.lower(at, start, end)?;
                from = end + self.lines[at].len() - length;
            }
        }
        Ok(())
    }

    /// Makes the number at these bytes of a line the least that is found by
    /// halving.
    fn lower(&mut self, at: usize, start: usize, end: usize) -> io::Result<()> {
        let digits = String::from_utf8_lossy(&self.lines[at][start..end]).into_owned();
        let mut high: u64 = match digits.parse() {
            Ok(0) | Err(_) => return Ok(()),
            Ok(number) => number,
        };
        let (line, tail) = (self.lines[at][..start].to_vec(), self.lines[at][end..].to_vec());
        let mut low = 0;
        let mut middle = 0;
        while middle < high {
            let mut lines = self.lines.clone();
            lines[at] = [&line[..], middle.to_string().as_bytes(), &tail[..]].concat();
            if self.take(lines)? {
                high = middle;
            } else {
                low = middle + 1;
            }
            middle = low + (high - low) / 2;
        }
        Ok(())
    }
}

/// The next digits of a line at or after a byte.
fn number_at(line: &[u8], from: usize) -> Option<(usize, usize)> {
    let start = from + line[from..].iter().position(|byte| byte.is_ascii_digit())?;
    let digits = line[start..].iter().take_while(|byte| byte.is_ascii_digit()).count();
    Some((start, start + digits))
}
