//! The tail table: adding, removing, finding and moving over flat words.
//!
//! Written from documents 01 and 02 alone. A table that is lent as a slice of
//! structs has the same words and the same answers, and is played as these.
//! Decisions: adding and removing take no stamp, so they do not look at the
//! record; only used records are held to their order; no words at all are a
//! table with room for none.

use crate::answer::Refusal;
use crate::model::{passes, File, Record, Tail, Task};
use crate::place::Place;
use crate::sizes::TAIL;

/// The first value of an answer to finding.
pub const SAME: u64 = 0;
pub const SHRUNK: u64 = 1;
pub const UNKNOWN: u64 = 2;

/// The words of a tail record, and where its offset stands among them.
const WORDS: usize = TAIL as usize;
const OFFSET: usize = 2;

/// A tail record: a file, and the offset that is saved of it.
#[derive(Clone, Copy, Debug, PartialEq, Eq)]
pub struct Saved {
    pub file: File,
    pub offset: u64,
}

impl Saved {
    pub fn words(self) -> [u64; WORDS] {
        [self.file.device, self.file.inode, self.offset]
    }
}

/// The records that stand in some words, used or not.
pub fn records(words: &[u64]) -> Vec<Saved> {
    let record = |words: &[u64]| {
        let file = File { device: words[0], inode: words[1] };
        Saved { file, offset: words[OFFSET] }
    };
    words.chunks_exact(WORDS).map(record).collect()
}

/// What a call on the table is lent and given.
pub struct Table<'a> {
    pub words: &'a mut [u64],
    /// How many records are used.
    pub count: &'a mut u64,
}

/// The first word of a file's record, or of where one would be added, and the
/// offset that is saved if it has a record.
struct Spot {
    start: usize,
    saved: Option<u64>,
}

/// Whether the count fits the room and the used records are in order, no file
/// twice.
pub fn sound(words: &[u64], count: u64) -> bool {
    let records = records(words);
    let ascending = |used: &[Saved]| used.windows(2).all(|two| two[0].file < two[1].file);
    count <= records.len() as u64 && ascending(&records[..count as usize])
}

/// Plays a call on the table; the values of its answer.
pub fn play(tail: &Tail, record: &Record, table: Table) -> Result<Vec<u64>, Refusal> {
    Refusal::first(&[
        (!Place::Tails.fits(table.words.len() as u64), Refusal::BadArea),
        (!sound(table.words, *table.count), Refusal::Damaged),
        (tail.claim().is_some() && !record.whole(), Refusal::Damaged),
    ])?;
    let spot = table.spot(tail.file);
    let refusals = tail.name().about().refusals.iter();
    let row = refusals.map(|refusal| (table.gives(*refusal, tail, record, &spot), *refusal));
    Refusal::first(&row.collect::<Vec<_>>())?;
    Ok(table.perform(tail, &spot))
}

impl Table<'_> {
    /// The word after the used records.
    fn end(&self) -> usize {
        *self.count as usize * WORDS
    }

    fn spot(&self, file: File) -> Spot {
        let used = &records(self.words)[..*self.count as usize];
        let before = used.iter().filter(|record| record.file < file).count();
        let there = used.get(before).filter(|record| record.file == file);
        Spot { start: before * WORDS, saved: there.map(|record| record.offset) }
    }

    /// Whether one of a call's own refusals is given, the table being sound.
    fn gives(&self, refusal: Refusal, tail: &Tail, record: &Record, spot: &Spot) -> bool {
        match (refusal, tail.task) {
            (Refusal::TableFull, _) => self.end() == self.words.len(),
            (Refusal::Twice, _) => spot.saved.is_some(),
            (Refusal::Absent, _) => spot.saved.is_none(),
            (Refusal::GoesBack, Task::Move { offset, .. }) => {
                spot.saved.map_or(false, |saved| offset < saved)
            }
            (Refusal::NotPassed, Task::Find { claim, .. } | Task::Move { claim, .. }) => {
                !passes(record, claim)
            }
            _ => unreachable!("no refusal of this call's own"),
        }
    }

    /// Leaves what a call leaves that is not refused, and gives its values.
    fn perform(self, tail: &Tail, spot: &Spot) -> Vec<u64> {
        let (start, end) = (spot.start, self.end());
        match tail.task {
            Task::Add { offset } => {
                let added = Saved { file: tail.file, offset };
                self.words.copy_within(start..end, start + WORDS);
                self.words[start..start + WORDS].copy_from_slice(&added.words());
                *self.count += 1;
            }
            Task::Remove => {
                self.words.copy_within(start + WORDS..end, start);
                self.words[end - WORDS..end].fill(0);
                *self.count -= 1;
            }
            Task::Move { offset, .. } => self.words[start + OFFSET] = offset,
            Task::Find { size, .. } => return found(spot.saved, size),
        }
        vec![]
    }
}

/// What finding answers of a saved offset and a file's size.
fn found(saved: Option<u64>, size: u64) -> Vec<u64> {
    match saved {
        None => vec![UNKNOWN],
        Some(offset) if size < offset => vec![SHRUNK],
        Some(offset) => vec![SAME, offset],
    }
}
