//! Makes seeded random scripts that reach every phase and every answer.
//!
//! Written from documents 01 and 02 and the page on the driver's script alone.
//! The maker plays each line on its own model as it goes, so that it can
//! continue sensibly (the right ticket, the due asking) as well as not.

mod bad;
mod episodes;
mod lines;
mod logs;
mod odd;
mod stamps;
mod statuses;
mod tails;

use crate::dice::Dice;
use crate::line;
use crate::model::Record;
use crate::place::Place;
use crate::script::{Made, Player, Reply};
use crate::sizes::BYTE_MOST;
use std::io::{self, Write};

/// What is told of each answered call.
pub type Seen<'a> = &'a mut dyn FnMut(&Made);

pub struct Maker<'a> {
    dice: Dice,
    player: Player,
    output: &'a mut dyn Write,
    seen: Seen<'a>,
    calls: u64,
    /// The bad lines that are picked from.
    bad: Vec<String>,
}

/// Prints a script of about `calls` calls and tells `seen` of each answer.
pub fn make(seed: u64, calls: u64, output: &mut dyn Write, seen: Seen) -> io::Result<()> {
    let dice = Dice::new(seed);
    let bad = bad::all();
    let mut maker = Maker { dice, player: Player::new(), output, seen, calls: 0, bad };
    maker.say(&format!("# seed {}, about {} calls", seed, calls))?;
    maker.run(3)?;
    while maker.calls < calls {
        maker.episode()?;
    }
    maker.say("show")?;
    maker.output.flush()
}

/// One episode, drawn by a seed, of a script that a player has played so far.
pub fn episode(seed: u64, player: Player) -> io::Result<Vec<u8>> {
    let mut output = Vec::new();
    let (dice, bad) = (Dice::new(seed), bad::all());
    let seen: Seen = &mut |_| {};
    let mut maker = Maker { dice, player, output: &mut output, seen, calls: 0, bad };
    maker.episode()?;
    Ok(output)
}

impl Maker<'_> {
    /// Writes a line and plays it on the maker's own model. One call in
    /// twenty is looked at afterwards.
    fn say(&mut self, line: &str) -> io::Result<()> {
        writeln!(self.output, "{}", line)?;
        if let Reply::Answered(made) = self.player.hear(line.as_bytes()) {
            self.calls += 1;
            (self.seen)(&made);
            if self.dice.chance(5) {
                self.say("show")?;
            }
        }
        Ok(())
    }

    fn episode(&mut self) -> io::Result<()> {
        if self.dice.chance(80) {
            self.right_sizes()?;
        }
        match self.dice.below(23) {
            0..=4 => self.chain()?,
            5..=8 => self.placed()?,
            9 | 10 => self.damaged()?,
            11 | 12 => self.wrong_size()?,
            13 | 14 => self.full_log()?,
            15 => self.broken_head()?,
            16 => self.status()?,
            17 => self.maxima()?,
            18 => self.nearly_worn()?,
            19 | 20 => self.tails()?,
            21 => self.stamped()?,
            _ => self.odd_lines()?,
        }
        Ok(())
    }

    fn right_sizes(&mut self) -> io::Result<()> {
        for place in [Place::of_transaction(), &[Place::Tails]].concat() {
            if self.lent(place) != place.lent_at_start() {
                self.lend(place, place.lent_at_start())?;
            }
        }
        if self.lent(Place::Groups) != self.lent(Place::Status) && self.dice.chance(50) {
            self.lend(Place::Groups, Place::Groups.lent_at_start())?;
            self.lend(Place::Status, Place::Status.lent_at_start())?;
        }
        self.right_tails()
    }

    fn record(&self) -> &Record {
        &self.player.driver.record
    }

    fn lent(&self, place: Place) -> u64 {
        self.player.driver.lent(place)
    }

    fn lend(&mut self, place: Place, size: u64) -> io::Result<()> {
        self.say(&line::lend(place, size))
    }

    fn put(&mut self, place: Place, index: u64, value: u64) -> io::Result<()> {
        self.say(&line::put(place, index, value))
    }

    fn filling(&mut self) -> String {
        format!("fill {}", self.dice.payload())
    }

    /// A byte or word anywhere in an area or the table, often at the edge of
    /// what is lent, so that all of it is seen to move or to stay.
    fn stirring(&mut self) -> String {
        let place = self.dice.pick(Place::of_transaction());
        let edge = place.lent_at_start();
        let index = match self.dice.below(4) {
            0 => edge - 1,
            1 => edge,
            2 => self.dice.below(edge),
            _ => self.dice.below(place.held()),
        };
        line::put(place, index, self.dice.below(BYTE_MOST + 1))
    }

    /// Plays `count` calls, most of them sensible.
    fn run(&mut self, count: u64) -> io::Result<()> {
        for _ in 0..count {
            if self.dice.chance(2) {
                let line = self.odd_line();
                self.say(&line)?;
            }
            if self.dice.chance(8) {
                let line = if self.dice.chance(50) { self.filling() } else { self.stirring() };
                self.say(&line)?;
            }
            let line = if self.dice.chance(75) { self.sensible() } else { self.any_call() };
            self.say(&line)?;
        }
        Ok(())
    }
}
