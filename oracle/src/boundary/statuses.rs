//! The boundary pairs of the status part: lengths, ids and bytes.
//!
//! Written from document 01 and the page on the driver's script alone.

use super::Out;
use crate::line;
use crate::place::Place;
use crate::sizes::{BYTE_MOST, HELD_IDS, IDS_MOST, LENT_IDS, TOP};
use crate::status::{GROUP_BITS, READY, STATUS_BITS};
use std::io;

fn lend(out: Out, groups: u64, status: u64) -> io::Result<()> {
    writeln!(out, "{}", line::lend(Place::Groups, groups))?;
    writeln!(out, "{}", line::lend(Place::Status, status))
}

fn put_all(out: Out, place: Place, byte: u64) -> io::Result<()> {
    for id in 0..HELD_IDS {
        writeln!(out, "{}", line::put(place, id, byte))?;
    }
    Ok(())
}

/// Lengths of groups and status, equal and not.
fn lengths() -> Vec<(u64, u64)> {
    let equal = |length| (length, length);
    let mut pairs = [0, 1, 2, LENT_IDS].map(equal).to_vec();
    pairs.extend([(LENT_IDS, LENT_IDS - 1), (LENT_IDS - 1, LENT_IDS)]);
    pairs.extend([IDS_MOST - 1, IDS_MOST, IDS_MOST + 1, HELD_IDS].map(equal));
    pairs.extend([(0, 1), (1, 0)]);
    pairs
}

pub(super) fn status_lengths(out: Out) -> io::Result<()> {
    writeln!(out, "# status lengths and ids")?;
    put_all(out, Place::Groups, u64::from(READY))?;
    let few = [0, 1, 2].into_iter().chain(LENT_IDS - 2..=LENT_IDS);
    let many = (IDS_MOST - 2..=IDS_MOST + 1).chain([(1 << 16) + 1, (1 << 32) + 1, TOP]);
    let ids: Vec<u64> = few.chain(many).collect();
    for (groups, status) in lengths() {
        lend(out, groups, status)?;
        for id in &ids {
            writeln!(out, "link {} 0\nlink {} 1\nlink {} 1", id, id, id)?;
            writeln!(out, "initialize {}\ncancel {}", id, id)?;
        }
        writeln!(out, "show")?;
        put_all(out, Place::Status, 0)?;
    }
    Ok(())
}

/// The byte of an id in groups and in status.
fn put(out: Out, id: u64, group: u64, status: u64) -> io::Result<()> {
    writeln!(out, "{}", line::put(Place::Groups, id, group))?;
    writeln!(out, "{}", line::put(Place::Status, id, status))
}

pub(super) fn status_bytes(out: Out) -> io::Result<()> {
    writeln!(out, "# every group byte by every status byte, and some past them")?;
    lend(out, LENT_IDS, LENT_IDS)?;
    let [groups, statuses] = [GROUP_BITS, STATUS_BITS].map(u64::from);
    for group in (0..=groups + 2).chain([BYTE_MOST]) {
        for status in (0..=statuses + 3).chain([BYTE_MOST]) {
            for call in ["link 5 0", "link 5 1", "initialize 5", "cancel 5"] {
                put(out, 5, group, status)?;
                writeln!(out, "{}\nshow", call)?;
            }
        }
    }
    writeln!(out, "# a bad byte elsewhere is nothing to an id")?;
    put(out, 0, BYTE_MOST, BYTE_MOST)?;
    put(out, 6, BYTE_MOST, BYTE_MOST)?;
    put(out, 5, u64::from(READY), 0)?;
    writeln!(out, "link 5 1\ninitialize 5\ncancel 5\nlink 0 1\ncancel 6\nshow")
}
