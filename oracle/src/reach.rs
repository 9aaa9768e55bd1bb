//! A short script that reaches every call with every answer that it can have,
//! through a log where it can go through one, and without; and Capacity by each
//! maximum that gives it.
//!
//! Written from documents 01 and 02 and the page on the driver's script alone. The
//! maker's episodes are drawn by seeds in turn. One is kept that reaches what
//! none before it did, up to the last call that does, and is looked at then.

use crate::answer::{Answer, Refusal};
use crate::make;
use crate::model::{About, Name, Record, CALLS};
use crate::place::Place;
use crate::script::{Made, Player, Reply};
use crate::sizes::TOP;
use crate::tally::{allowed, column_of, counted, Column};
use std::collections::BTreeSet;
use std::io::{self, Write};

/// So many episodes are drawn at most.
const DRAWS: u64 = 100_000;
/// An episode of more bytes is not kept.
const EPISODE_MOST: usize = 400;

/// Which numbers of a record are at their maximum.
#[derive(Clone, Copy, Debug, PartialEq, Eq, PartialOrd, Ord)]
pub enum Maximum {
    Revision,
    Replacements,
    Both,
}

/// A call with its answer, whether it went through a log, and of Capacity what
/// is at its maximum.
pub type Kind = (Name, Column, bool, Option<Maximum>);

const CAPACITY: Answer = Answer::Refused(Refusal::Capacity);

/// What can be at its maximum where a call has an answer.
fn maxima(about: &About, column: Column) -> &'static [Option<Maximum>] {
    use Maximum::{Both, Replacements, Revision};
    if column != column_of(CAPACITY) {
        &[None]
    } else if about.name == Name::Refresh {
        &[Some(Replacements), Some(Both)]
    } else {
        &[Some(Revision), Some(Replacements), Some(Both)]
    }
}

fn maximum(record: &Record) -> Option<Maximum> {
    match (record.revision == TOP, record.replacements == TOP) {
        (true, false) => Some(Maximum::Revision),
        (false, true) => Some(Maximum::Replacements),
        (true, true) => Some(Maximum::Both),
        (false, false) => None,
    }
}

/// Whether a call can have an answer through a log, or without one.
fn possible(about: &About, column: Column, logged: bool) -> bool {
    let is = |refusal| column == column_of(Answer::Refused(refusal));
    if logged {
        about.kind.is_some() || about.name == Name::Open
    } else {
        !(is(Refusal::LogFull) || is(Refusal::BadArea) && about.lent.is_empty())
    }
}

/// Every kind that a script can reach.
pub fn kinds() -> BTreeSet<Kind> {
    let mut kinds = BTreeSet::new();
    for about in &CALLS {
        for column in allowed(about) {
            for logged in [false, true].into_iter().filter(|way| possible(about, column, *way)) {
                let maxima = maxima(about, column).iter();
                kinds.extend(maxima.map(|maximum| (about.name, column, logged, *maximum)));
            }
        }
    }
    kinds
}

/// The kind of a call that was made, a log being lent or not.
pub fn kind(made: &Made, lent: bool) -> Kind {
    let column = counted(made.name, &made.answered);
    let logged = lent && possible(made.name.about(), column, true);
    let maximum = if column == column_of(CAPACITY) { maximum(&made.before) } else { None };
    (made.name, column, logged, maximum)
}

/// An episode: its lines up to the last call that reaches something first,
/// and what they reach.
struct Episode {
    lines: Vec<u8>,
    reached: BTreeSet<Kind>,
}

/// Plays drawn lines, leaving out those that are no commands.
fn cut(drawn: &[u8], mut player: Player, left: &BTreeSet<Kind>) -> Episode {
    let mut episode = Episode { lines: vec![], reached: BTreeSet::new() };
    let mut end = 0;
    for line in drawn.split(|byte| *byte == b'\n').filter(|line| !line.is_empty()) {
        let lent = player.driver.lent(Place::Log) > 0;
        let reply = player.hear(line);
        if matches!(reply, Reply::Bad(_)) || line[0] == b'#' {
            continue;
        }
        episode.lines.extend_from_slice(line);
        episode.lines.push(b'\n');
        if let Reply::Answered(made) = reply {
            let kind = kind(&made, lent);
            if left.contains(&kind) && episode.reached.insert(kind) {
                end = episode.lines.len();
            }
        }
    }
    episode.lines.truncate(end);
    episode
}

/// Prints the script.
pub fn reach(output: &mut dyn Write) -> io::Result<()> {
    let mut player = Player::new();
    let mut left = kinds();
    for seed in 0..DRAWS {
        let episode = cut(&make::episode(seed, player.clone())?, player.clone(), &left);
        if episode.reached.is_empty() || episode.lines.len() > EPISODE_MOST {
            continue;
        }
        left.retain(|kind| !episode.reached.contains(kind));
        output.write_all(&episode.lines)?;
        writeln!(output, "show")?;
        for line in episode.lines.split(|byte| *byte == b'\n') {
            player.hear(line);
        }
        if left.is_empty() {
            break;
        }
    }
    output.flush()
}
