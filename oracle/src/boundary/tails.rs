//! The boundary pairs of the tail table: its words, its count, the order of its
//! records, and where they are added and removed.
//!
//! Written from documents 01 and 02 and the page on the driver's script alone.

use super::records::idle_record;
use super::tail_lines::{add, advance, file, find, passing, put, remove, saved, table};
use super::Out;
use crate::line;
use crate::model::File;
use crate::sizes::{HELD_TAILS, TAIL, TAILS_MOST, TOP};
use crate::tails::Saved;
use std::io;

pub(super) fn tail_sizes(out: Out) -> io::Result<()> {
    writeln!(out, "# words of the tail table\n{}", line::record(&idle_record()))?;
    let about = TAILS_MOST - 1..=TAILS_MOST + 1;
    for words in [0, 1, TAIL].into_iter().chain(about).chain([TAILS_MOST + TAIL, HELD_TAILS]) {
        table(out, words, &[])?;
        let one = file(1, 2);
        find(out, one, 5, passing())?;
        add(out, one, 5)?;
        add(out, one, 6)?;
        find(out, one, 5, passing())?;
        advance(out, one, 6, passing())?;
        writeln!(out, "show")?;
        remove(out, one)?;
    }
    Ok(())
}

/// Counts at the room and past it, also such that they are few where they are
/// cut to 32 bits, or three times as many to 64.
pub(super) fn tail_counts(out: Out) -> io::Result<()> {
    writeln!(out, "# counts of used tail records")?;
    let (past, third) = (1 << 32, TOP / TAIL);
    let one = file(1, 1);
    table(out, 2 * TAIL, &[saved(1, 1, 1), saved(2, 2, 2)])?;
    for count in [0, 1, 2, 3, past, past + 1, third + 1, 2 * third + 1, TOP] {
        writeln!(out, "{}", line::tails(count))?;
        find(out, one, 9, passing())?;
        advance(out, one, 9, passing())?;
        add(out, one, 5)?;
        remove(out, file(9, 9))?;
    }
    table(out, 0, &[])?;
    for count in [1, TOP] {
        writeln!(out, "{}", line::tails(count))?;
        find(out, one, 9, passing())?;
        add(out, one, 5)?;
        remove(out, one)?;
    }
    Ok(())
}

/// Files in and out of order.
fn orders() -> Vec<Vec<File>> {
    let two = [
        [(1, 1), (1, 2)],
        [(1, 2), (1, 1)],
        [(1, 1), (1, 1)],
        [(1, 2), (2, 1)],
        [(2, 1), (1, 2)],
        [(1, TOP), (2, 0)],
        [(0, 0), (TOP, TOP)],
        [(TOP, TOP), (0, 0)],
        [(TOP, TOP - 1), (TOP, TOP)],
    ];
    let three = [[(1, 1), (3, 3), (2, 2)], [(2, 2), (1, 1), (3, 3)], [(1, 1), (2, 2), (2, 2)]];
    let files = |pairs: &[(u64, u64)]| pairs.iter().map(|(d, i)| file(*d, *i)).collect();
    two.iter().map(|row| files(row)).chain(three.iter().map(|row| files(row))).collect()
}

/// Every order; and the last record not used, so that it is not held to it.
pub(super) fn tail_orders(out: Out) -> io::Result<()> {
    writeln!(out, "# tail records in and out of order")?;
    for files in orders() {
        let records: Vec<Saved> =
            (1..).zip(&files).map(|(offset, file)| Saved { file: *file, offset }).collect();
        table(out, TAILS_MOST, &records)?;
        find(out, files[1], 9, passing())?;
        advance(out, files[0], 1, passing())?;
        add(out, files[0], 5)?;
        remove(out, file(7, 7))?;
        writeln!(out, "{}", line::tails(files.len() as u64 - 1))?;
        find(out, files[0], 9, passing())?;
    }
    Ok(())
}

/// Adding at the front, in the middle and at the end, and removing there and
/// the only record. Two records past the used ones show what is written there.
pub(super) fn tail_places(out: Out) -> io::Result<()> {
    writeln!(out, "# tail records added and removed")?;
    let past = [saved(TOP, 7, TOP), saved(7, TOP, 7)];
    for place in [file(0, 9), file(2, 3), file(4, 1)] {
        table(out, TAILS_MOST, &[saved(2, 2, 20), saved(2, 4, 24), saved(4, 0, 40)])?;
        put(out, 3, &past)?;
        add(out, place, 5)?;
        writeln!(out, "show")?;
        remove(out, place)?;
        writeln!(out, "show")?;
    }
    for place in [file(2, 4), file(2, 3), file(2, 2), file(4, 0), file(4, 0)] {
        remove(out, place)?;
        writeln!(out, "show")?;
    }
    Ok(())
}

/// As many records as there can be.
pub(super) fn tail_room(out: Out) -> io::Result<()> {
    writeln!(out, "# as many tail records as there can be")?;
    table(out, TAILS_MOST, &[])?;
    let room = TAILS_MOST / TAIL;
    for at in (0..room).map(|at| at * 101 % room) {
        add(out, file(at / 16, at % 16), at)?;
    }
    let (first, last, past) = (file(0, 0), file(15, 15), file(TOP, TOP));
    for count in [room, room + 1, room] {
        writeln!(out, "{}", line::tails(count))?;
        add(out, past, TOP)?;
        add(out, last, TOP)?;
        find(out, last, TOP, passing())?;
        advance(out, first, 5, passing())?;
    }
    writeln!(out, "show")?;
    for (gone, come) in [(first, past), (past, first), (last, file(7, 16))] {
        remove(out, gone)?;
        writeln!(out, "show")?;
        add(out, come, TOP)?;
        writeln!(out, "show")?;
    }
    Ok(())
}
