//! A call with what it copies, and what it writes to what is lent.
//!
//! Written from documents 01 and 02 alone.

use super::{Call, Lengths, Record};
use crate::place::Place;
use crate::sizes::ACTION;

/// One change to what is lent.
#[derive(Clone, Debug, PartialEq, Eq)]
pub enum Write<'a> {
    Bytes(Place, &'a [u8]),
    Words(&'a [u64]),
    Word(u64, u64),
    Swap(Place, Place),
    Copy { from: Place, to: Place },
}

/// A candidate payload and a recovery payload.
#[derive(Clone, Debug, PartialEq, Eq)]
pub struct Payloads {
    pub candidate: Vec<u8>,
    pub recovery: Vec<u8>,
}

/// What a call copies.
#[derive(Clone, Debug, PartialEq, Eq)]
pub enum Goods {
    Nothing,
    Snapshot(Vec<u8>),
    Both(Payloads),
    /// Of a begin, with the words of its pairs.
    Staged(Payloads, Vec<u64>),
    /// The payload of an action.
    Payload(u64),
}

#[derive(Clone, Debug, PartialEq, Eq)]
pub struct Given {
    pub call: Call,
    pub goods: Goods,
}

impl Payloads {
    pub fn lengths(&self) -> Lengths {
        Lengths { candidate: self.candidate.len() as u64, recovery: self.recovery.len() as u64 }
    }

    fn writes(&self) -> [Write<'_>; 2] {
        [
            Write::Bytes(Place::Candidate, &self.candidate),
            Write::Bytes(Place::Recovery, &self.recovery),
        ]
    }
}

/// How many actions so many words of pairs are.
pub fn actions(pairs: &[u64]) -> u64 {
    pairs.len() as u64 / ACTION
}

impl Given {
    /// The words of the pairs that a begin is given.
    pub fn pairs(&self) -> &[u64] {
        match &self.goods {
            Goods::Staged(_, pairs) => pairs,
            _ => &[],
        }
    }

    /// What the call writes where it is not refused, `old` being the record
    /// before it.
    pub fn writes(&self, old: &Record) -> Vec<Write<'_>> {
        match &self.goods {
            Goods::Nothing => self.moves(),
            Goods::Snapshot(payload) => vec![Write::Bytes(Place::Accepted, payload)],
            Goods::Both(payloads) => payloads.writes().to_vec(),
            Goods::Staged(payloads, pairs) => {
                [&payloads.writes()[..], &[Write::Words(pairs)]].concat()
            }
            Goods::Payload(payload) => vec![Write::Word(self.payload_of(old), *payload)],
        }
    }

    /// Areas that are exchanged whole, or copied.
    fn moves(&self) -> Vec<Write<'_>> {
        match self.call {
            Call::Commit => vec![Write::Swap(Place::Accepted, Place::Candidate)],
            Call::Recover { .. } | Call::Refresh { .. } => {
                vec![Write::Swap(Place::Accepted, Place::Exchange)]
            }
            Call::RecoverRetained => vec![
                Write::Copy { from: Place::Accepted, to: Place::Exchange },
                Write::Copy { from: Place::Recovery, to: Place::Accepted },
            ],
            _ => vec![],
        }
    }

    /// The word of the table that holds the payload of the action a report is of.
    fn payload_of(&self, old: &Record) -> u64 {
        let action = match self.call {
            Call::ReportUpdate { .. } => old.applied,
            Call::ReportRollback { .. } => old.entries - 1,
            _ => unreachable!("no other call is of an action"),
        };
        ACTION * action + 1
    }
}
