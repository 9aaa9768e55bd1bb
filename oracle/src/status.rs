//! The status part: link, initialise and cancel over group and status bytes.
//!
//! Written from document 01 alone.

use crate::answer::Refusal;
use crate::model::Mark;
use crate::place::Place;

/// The bits of a group byte.
pub const LIVE: u8 = 1;
pub const SETTLED: u8 = 2;
pub const PENDING: u8 = 4;
pub const GROUP_BITS: u8 = LIVE | SETTLED | PENDING;

/// The bits of a status byte.
pub const LINKED: u8 = 1;
pub const CANCELLED: u8 = 2;
pub const INITIALIZED: u8 = 4;
pub const FINISHED: u8 = 8;
pub const STATUS_BITS: u8 = LINKED | CANCELLED | INITIALIZED | FINISHED;

/// A group that is live, settled and not pending may be initialised.
pub const READY: u8 = LIVE | SETTLED;

fn sound(group: u8, status: u8) -> bool {
    let linked = status & LINKED != 0;
    group <= GROUP_BITS && status <= STATUS_BITS && (status == 0 || linked)
}

fn allowed(mark: Mark, group: u8, status: u8) -> bool {
    let linked = status & LINKED != 0;
    match mark {
        Mark::Link { domain } => domain && group & LIVE != 0 && !linked,
        Mark::Initialize => linked && group & GROUP_BITS == READY,
        Mark::Cancel => linked,
    }
}

/// The status byte that a call leaves where it is allowed.
fn marked(mark: Mark, status: u8) -> u8 {
    match mark {
        Mark::Link { .. } => LINKED,
        Mark::Initialize => status | INITIALIZED,
        Mark::Cancel => status | CANCELLED,
    }
}

/// Plays a status call on the bytes that are lent. An id that is refused for
/// being past the end has no bytes; zeros stand for them.
pub fn play(mark: Mark, id: u64, groups: &[u8], status: &mut [u8]) -> Result<(), Refusal> {
    let ids = groups.len() as u64;
    let at = id.min(ids) as usize;
    let byte = |bytes: &[u8]| bytes.get(at).copied().unwrap_or(0);
    let (group, old) = (byte(groups), byte(status));
    Refusal::first(&[
        (groups.len() != status.len() || !Place::Groups.fits(ids), Refusal::BadArea),
        (id == 0 || id >= ids, Refusal::NoStatus),
        (!sound(group, old), Refusal::Damaged),
        (!allowed(mark, group, old), Refusal::NoStatus),
    ])?;
    status[at] = marked(mark, old);
    Ok(())
}
