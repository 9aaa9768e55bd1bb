//! The steps of commit, both recoveries, refresh, and stamps.
//!
//! Written from documents 01 and 02 alone.

use super::{Claim, Record, Stamp, Step};

pub(super) fn commit(old: &Record) -> Step {
    let mut new = old.clone();
    new.revision += 1;
    new.settle(old.candidate);
    Step::done(new, &[old.accepted, old.recovery, old.entries])
}

/// What both recoveries answer and leave.
fn recovered(old: &Record, accepted: u64) -> Step {
    let mut new = old.clone();
    new.settle(accepted);
    Step::done(new, &[old.accepted, old.candidate, old.recovery])
}

pub(super) fn recover(old: &Record, length: u64) -> Step {
    recovered(old, length)
}

pub(super) fn recover_retained(old: &Record) -> Step {
    recovered(old, old.recovery)
}

/// Decision: refresh names only the accepted payload and the count of
/// replacements, so an idle record that is restoring stays so, and the other
/// two lengths stay.
pub(super) fn refresh(old: &Record, length: u64) -> Step {
    let mut new = old.clone();
    new.replace(length);
    Step::done(new, &[old.accepted])
}

pub(super) fn stamp(old: &Record, domain: u64) -> Step {
    Step::done(old.clone(), &Stamp::of(old, domain).words())
}

/// Whether a stamp passes, the record being whole.
pub fn passes(record: &Record, claim: Claim) -> bool {
    !record.staged && claim == Claim::of(record, claim.domain)
}

pub(super) fn check(old: &Record, claim: Claim) -> Step {
    Step::done(old.clone(), &[u64::from(passes(old, claim))])
}
