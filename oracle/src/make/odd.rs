//! Lines that are no commands, or only just are.
//!
//! Written from the page on the driver's script alone.

use super::Maker;
use crate::line;
use crate::place::Place;
use crate::sizes::{HELD_IDS, LINE_MOST};
use std::io;

impl Maker<'_> {
    pub(super) fn odd_lines(&mut self) -> io::Result<()> {
        for _ in 0..1 + self.dice.below(4) {
            let line = self.odd_line();
            self.say(&line)?;
        }
        self.run(2)
    }

    /// A bad line, a long one, or a valid line with a byte changed (which may
    /// be a command still).
    pub(super) fn odd_line(&mut self) -> String {
        match self.dice.below(10) {
            0 => format!("#{}", "x".repeat(self.about_a_line(&[-2, -1, 0, 1, 2000]))),
            1 | 2 => self.padded(),
            3..=5 => self.garbled(),
            6 => self.long_record(),
            _ => {
                let at = self.dice.below(self.bad.len() as u64) as usize;
                self.bad[at].clone()
            }
        }
    }

    /// Any line, or one that prepares.
    fn any_line(&mut self) -> String {
        match self.dice.below(9) {
            0 => self.filling(),
            1 => self.stirring(),
            2 => {
                let places = [Place::Accepted, Place::Table, Place::Groups, Place::Tails];
                line::lend(self.dice.pick(&places), self.dice.below(HELD_IDS + 1))
            }
            3 => self.opening(),
            4 => line::tails(self.dice.any()),
            _ => self.any_call(),
        }
    }

    /// So many bytes more or fewer than a line has at most.
    fn about_a_line(&mut self, by: &[i64]) -> usize {
        (LINE_MOST as i64 + self.dice.pick(by)) as usize
    }

    /// A line with a number of leading zeros that make it about as long as a
    /// line may be.
    fn padded(&mut self) -> String {
        let mut line = self.any_line();
        let width = self.about_a_line(&[-1, 0, 0, 1, 1, 2, 1000]);
        let digits: Vec<usize> =
            line.match_indices(|c: char| c.is_ascii_digit()).map(|(at, _)| at).collect();
        let starts: Vec<usize> =
            digits.iter().copied().filter(|at| *at == 0 || !digits.contains(&(at - 1))).collect();
        let at = if starts.is_empty() { line.len() } else { self.dice.pick(&starts) };
        line.insert_str(at, &"0".repeat(width - line.len()));
        line
    }

    /// A record of a word too many or too few, or of no ticket with a number.
    fn long_record(&mut self) -> String {
        let mut record = self.dice.whole_record();
        record.live = None;
        let tail = self.dice.pick(&[" 0", "1", " ", " 1 2 3", " x", ":1"]);
        if self.dice.chance(20) {
            let row = record.row();
            return line::row(&row[..row.len() - 1]);
        }
        line::record(&record) + tail
    }

    fn garbled(&mut self) -> String {
        let mut line = self.any_line().into_bytes();
        let at = self.dice.below(line.len() as u64) as usize;
        match self.dice.below(5) {
            0 => {
                line.remove(at);
            }
            1 => line.insert(at, b' '),
            2 => line[at] = self.dice.pick(b" 0:-a9#\t\r\0\x7f"),
            3 => line.extend_from_slice(self.dice.pick(&[
                b" ".as_slice(),
                b" 0",
                b"\r",
                b"\t",
                b"0",
            ])),
            _ => line.truncate(at),
        }
        String::from_utf8(line).expect("lines are ASCII")
    }
}
