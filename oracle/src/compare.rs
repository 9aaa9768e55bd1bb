//! Comparing: the same scripts played here and by another program.
//!
//! The fixed scripts come first, then the random one of each seed, those of
//! odd seeds without their last newline. The other program is started anew for
//! each script, is given it on its standard input and must write, byte for
//! byte, what is written here. At the first difference the script is made as
//! small as it can be, and shown with what either side writes.

pub mod audits;
pub mod logs;
pub mod replays;
mod report;
pub mod shrink;
mod sides;

use crate::boundary;
use crate::make;
use crate::tally::Tally;
use sides::{ours, theirs, Ours};
use std::io::{self, Write};

/// How many of the scripts are fixed.
const FIXED: usize = 3;

/// Which scripts are played, and by which program.
pub struct Plan<'a> {
    pub first_seed: u64,
    pub seeds: u64,
    pub calls: u64,
    pub driver: &'a [String],
}

/// What was compared so far.
struct Totals {
    scripts: u64,
    lines: u64,
    answers: u64,
    bad: u64,
    shows: u64,
    tally: Tally,
}

impl Totals {
    fn add(&mut self, script: &[u8], ours: &Ours) {
        self.scripts += 1;
        self.lines += lines(script).len() as u64;
        self.answers += ours.lines.len() as u64;
        self.bad += ours.bad;
        self.shows += ours.shows;
        for made in &ours.made {
            self.tally.count(made);
        }
    }
}

/// The lines of a script, a last one without a newline too.
fn lines(script: &[u8]) -> Vec<&[u8]> {
    let whole = script.strip_suffix(b"\n").unwrap_or(script);
    if script.is_empty() {
        vec![]
    } else {
        whole.split(|byte| *byte == b'\n').collect()
    }
}

/// The fixed scripts.
fn fixed() -> io::Result<[(&'static str, Vec<u8>); FIXED]> {
    let (mut boundary, mut sweep) = (Vec::new(), Vec::new());
    boundary::boundary(&mut boundary)?;
    boundary::sweep(&mut sweep)?;
    Ok([("empty", Vec::new()), ("boundary", boundary), ("sweep", sweep)])
}

/// Plays all scripts of a plan on both sides; false at the first difference.
pub fn compare(plan: &Plan, output: &mut dyn Write) -> io::Result<bool> {
    let tally = Tally::new();
    let mut totals = Totals { scripts: 0, lines: 0, answers: 0, bad: 0, shows: 0, tally };
    for (name, script) in fixed()? {
        if !same(name, &script, plan, &mut totals, output)? {
            return Ok(false);
        }
    }
    for seed in (0..plan.seeds).map(|at| plan.first_seed.wrapping_add(at)) {
        let mut script = Vec::new();
        make::make(seed, plan.calls, &mut script, &mut |_| {})?;
        if seed % 2 == 1 {
            script.pop();
        }
        if !same(&format!("seed {}", seed), &script, plan, &mut totals, output)? {
            return Ok(false);
        }
    }
    summary(plan, &totals, output)?;
    Ok(true)
}

fn summary(plan: &Plan, totals: &Totals, output: &mut dyn Write) -> io::Result<()> {
    writeln!(
        output,
        "no difference: {} scripts ({} fixed, {} seeds from {}), {} lines, {} calls, {} bad lines, \
         {} shows, {} lines of answers",
        totals.scripts,
        FIXED,
        plan.seeds,
        plan.first_seed,
        totals.lines,
        totals.tally.cells.counted(),
        totals.bad,
        totals.shows,
        totals.answers
    )?;
    write!(output, "{}", totals.tally.text())
}

/// Whether both sides write the same on a script; else a report of it.
fn same(
    name: &str,
    script: &[u8],
    plan: &Plan,
    totals: &mut Totals,
    output: &mut dyn Write,
) -> io::Result<bool> {
    let here = ours(script);
    let there = theirs(plan.driver, script)?;
    if there.agrees(&here) {
        totals.add(script, &here);
        return Ok(true);
    }
    writeln!(output, "{}: the two sides differ; looking for a smaller script", name)?;
    output.flush()?;
    let last = there.first_difference(&here).and_then(|at| here.from.get(at).copied());
    let mut differs = |script: &[u8]| -> io::Result<bool> {
        Ok(!theirs(plan.driver, script)?.agrees(&ours(script)))
    };
    let (small, tries) = shrink::smallest(script, last, &mut differs)?;
    report::tell(&small, tries, plan, output)?;
    Ok(false)
}
