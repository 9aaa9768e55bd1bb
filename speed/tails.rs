//! Finding and moving in a tail table of 256 records: the proved functions,
//! linked from crates/edge/out/libedge.a, beside safe Rust that does the same
//! test of the order and the same search, each record once.
//!
//! Within Rust 1.63 and std alone: it is also built by Debian's rustc.

mod race;

use std::hint::black_box;

/// Records of the table, and the words of one.
const RECORDS: usize = 256;
const WIDTH: usize = 3;
/// The revision of the settings and their count of replacements, and the
/// stamp's.
const REVISION: u64 = 7;
const REPLACEMENTS: u64 = 9;
/// The size of the file that is found, and the offset that a move goes to.
const SIZE: u64 = 1 << 50;
const OFFSET: u64 = 1 << 40;

// Slices cross the boundary as an address and a length, in Rust as in Rattle.
#[allow(improper_ctypes)]
#[link(name = "edge", kind = "static")]
extern "C" {
    fn edge_find_tail(
        words: &[u64],
        used: usize,
        device: u64,
        inode: u64,
        size: u64,
        revision: u64,
        replacements: u64,
        stamped: u64,
        counted: u64,
    ) -> u64;
    fn edge_move_tail(
        words: &mut [u64],
        used: usize,
        device: u64,
        inode: u64,
        offset: u64,
        revision: u64,
        replacements: u64,
        stamped: u64,
        counted: u64,
    ) -> u64;
}

/// A call on the table, for the record with this pair.
type Contender = (&'static str, fn(&mut [u64], u64, u64) -> u64);

/// The place of a pair, or `None`; a table out of order is `Err`.
#[inline(always)]
fn search(words: &[u64], used: usize, device: u64, inode: u64) -> Result<Option<usize>, ()> {
    if words.len() % WIDTH != 0 || words.len() > WIDTH * RECORDS || used > words.len() / WIDTH {
        return Err(());
    }
    let mut last = None;
    let mut place = None;
    for (at, tail) in words.chunks_exact(WIDTH).take(used).enumerate() {
        let pair = (tail[0], tail[1]);
        if last.map_or(false, |before| before >= pair) {
            return Err(());
        }
        if pair == (device, inode) {
            place = Some(at);
        }
        last = Some(pair);
    }
    Ok(place)
}

#[inline(never)]
fn find_rust(words: &mut [u64], device: u64, inode: u64) -> u64 {
    let accepted = (black_box(REVISION), black_box(REPLACEMENTS));
    let stamped = (black_box(REVISION), black_box(REPLACEMENTS));
    match search(words, RECORDS, device, inode) {
        Ok(Some(place)) if accepted == stamped => {
            let offset = words[place * WIDTH + 2];
            if black_box(SIZE) < offset {
                u64::MAX
            } else {
                offset
            }
        }
        _ => u64::MAX,
    }
}

fn find_proved(words: &mut [u64], device: u64, inode: u64) -> u64 {
    let (revision, count) = (REVISION, REPLACEMENTS);
    unsafe { edge_find_tail(words, RECORDS, device, inode, SIZE, revision, count, revision, count) }
}

#[inline(never)]
fn move_rust(words: &mut [u64], device: u64, inode: u64) -> u64 {
    let accepted = (black_box(REVISION), black_box(REPLACEMENTS));
    let stamped = (black_box(REVISION), black_box(REPLACEMENTS));
    match search(words, RECORDS, device, inode) {
        Err(()) => 7,
        Ok(_) if accepted != stamped => 35,
        Ok(None) => 34,
        Ok(Some(place)) if OFFSET < words[place * WIDTH + 2] => 33,
        Ok(Some(place)) => {
            words[place * WIDTH + 2] = OFFSET;
            0
        }
    }
}

fn move_proved(words: &mut [u64], device: u64, inode: u64) -> u64 {
    let (revision, count) = (REVISION, REPLACEMENTS);
    unsafe {
        edge_move_tail(words, RECORDS, device, inode, OFFSET, revision, count, revision, count)
    }
}

const FINDS: [Contender; 2] = [("Rust", find_rust), ("Rattle", find_proved)];
const MOVES: [Contender; 2] = [("Rust", move_rust), ("Rattle", move_proved)];

/// A full table in order: four inodes to a device, each offset its place.
fn table() -> Vec<u64> {
    (0..RECORDS as u64).flat_map(|at| [at / 4, at % 4 * 1000, at]).collect()
}

/// The pairs that are looked for: the first, one in the middle, the last, and
/// one that is not there.
const PAIRS: [(u64, u64); 4] = [(0, 0), (32, 1000), (63, 3000), (40, 7)];

/// All contenders answer and leave the same, or the program stops.
fn agree(contenders: &[Contender]) {
    for (device, inode) in PAIRS {
        let mut wanted = table();
        let answer = contenders[0].1(&mut wanted, device, inode);
        for (name, call) in contenders {
            let mut words = table();
            assert!(
                call(&mut words, device, inode) == answer && words == wanted,
                "{} does something else",
                name
            );
        }
    }
}

fn race(title: &str, contenders: &[Contender]) {
    agree(contenders);
    let names: Vec<&str> = contenders.iter().map(|(name, _)| *name).collect();
    race::race(&format!("{} among {} records", title, RECORDS), &names, |at| {
        let mut words = table();
        let mut turn = 0;
        race::time(|| {
            let (device, inode) = PAIRS[turn % PAIRS.len()];
            turn += 1;
            black_box(contenders[at].1(black_box(&mut words), device, inode));
        })
    });
}

fn main() {
    race("find", &FINDS);
    race("move", &MOVES);
}
