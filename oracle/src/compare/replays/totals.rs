//! What was compared of replays so far.
//!
//! Written from documents 01 and 02 alone.

use super::faults::{self, Sort};
use super::PORTIONS;
use crate::answer::{Answer, Refusal};
use crate::compare::logs::Subject;
use crate::input;
use crate::log;
use crate::model::Name;
use crate::program::{words_of, Program, Told, Why};
use crate::recording::Recording;
use crate::replay::program::play;
use crate::tally::{column_of, Column, Table};
use std::collections::BTreeMap;

/// Refusals that no event of a replay is answered: a replay has no areas and no
/// log that is written, and its record is whole.
const NEVER: [Refusal; 3] = [Refusal::BadArea, Refusal::Damaged, Refusal::LogFull];

/// Where a bad event stands: the first of its log, between others, the last.
const PLACES: usize = 3;

pub struct Totals {
    /// Events, a log being counted with each of its portions.
    with_portions: u64,
    /// Calls by answers, each log counted once.
    pub answers: Table<Name, Column>,
    pub sorts: BTreeMap<(Sort, usize), u64>,
    refused: BTreeMap<u64, u64>,
}

/// The recorded calls with the answers that each can have in a replay.
pub fn rows() -> Table<Name, Column> {
    let never = NEVER.map(|refusal| column_of(Answer::Refused(refusal)));
    let row = |name: Name| {
        let answers = name.about().answers().into_iter().map(column_of);
        (name, answers.filter(|column| !never.contains(column)).collect())
    };
    Table::new("call", Name::RECORDED.into_iter().map(row).collect())
}

fn column(answer: u64) -> Column {
    if answer == Answer::Done.number() {
        Column::Done
    } else {
        Column::Other(answer)
    }
}

impl Default for Totals {
    fn default() -> Totals {
        let (answers, sorts, refused) = (rows(), BTreeMap::new(), BTreeMap::new());
        Totals { with_portions: 0, answers, sorts, refused }
    }
}

impl Totals {
    fn add_bad(&mut self, recording: &Recording, number: u64) {
        let words = words_of(&recording.bytes).expect("the log was replayed");
        let sort = faults::sort(&input::event(&words, number)).expect("a bad event");
        let place = match number {
            0 => 0,
            last if last + 1 == words[log::COUNT] => PLACES - 1,
            _ => 1,
        };
        *self.sorts.entry((sort, place)).or_insert(0) += 1;
    }

    fn bad_at(&self, place: usize) -> u64 {
        self.sorts.iter().filter(|((_, at), _)| *at == place).map(|(_, count)| count).sum()
    }

    /// How many logs are refused by each number, and where bad events stand.
    fn stops(&self) -> String {
        let refused =
            self.refused.iter().map(|(number, count)| format!("{} with {}", count, number));
        format!(
            "logs refused: {}\nbad events at the first place: {}, between: {}, at the last: {}\n",
            refused.collect::<Vec<_>>().join(", "),
            self.bad_at(0),
            self.bad_at(1),
            self.bad_at(PLACES - 1)
        )
    }
}

impl Subject for Totals {
    fn program(&self) -> Program {
        Program::Replay
    }

    /// With each portion, and without one.
    fn rows(&self, recording: &Recording) -> Vec<Vec<String>> {
        let words = recording.words();
        let with = |portion: &u64| [&words[..], &[portion.to_string()]].concat();
        let mut rows: Vec<Vec<String>> = PORTIONS.iter().map(with).collect();
        rows.push(words);
        rows
    }

    fn text(&mut self, bytes: &[u8], told: &Told) -> String {
        let played = play(bytes, told);
        self.with_portions += played.ran.len() as u64;
        played.text()
    }

    /// Counts a recording as it is played at once.
    fn add(&mut self, recording: &Recording) {
        let played = play(&recording.bytes, &recording.told());
        for (name, answer) in &played.ran {
            self.answers.count(*name, column(*answer));
        }
        match played.why {
            Why::AllRan => {}
            Why::Bad => self.add_bad(recording, played.ran.len() as u64),
            Why::Refused(refusal) => *self.refused.entry(refusal as u64).or_insert(0) += 1,
        }
    }

    fn amounts(&self) -> String {
        format!("{} events, {} with the portions", self.answers.counted(), self.with_portions)
    }

    fn tables(&self) -> String {
        let mut sorts: BTreeMap<Sort, u64> = BTreeMap::new();
        for ((sort, _), count) in &self.sorts {
            *sorts.entry(*sort).or_insert(0) += count;
        }
        let answers = &self.answers;
        [answers.grid(), answers.faults_told(), self.stops(), faults::text(&sorts)].concat()
    }
}
