//! Reading the words of a call.
//!
//! Written from the page on the driver's script alone (and documents 01 and 02
//! for what the calls take).

use super::words::{flag, number, numbers, pairs, payload, Words};
use crate::model::{
    actions, Call, Claim, File, Given, Goods, Mark, Name, Opening, Outcome, Payloads, Stamp, Tail,
    Task, Work, CALLS,
};

/// The call of a word and of the words after it, if they are one.
pub(super) fn given(word: &[u8], words: Words) -> Option<Given> {
    let name = CALLS.iter().find(|about| about.word.as_bytes() == word)?.name;
    match name {
        Name::Open => open(words),
        Name::Begin | Name::BeginStructural => begin(name, words),
        Name::ReportStructure | Name::ReportUpdate | Name::ReportRollback => report(name, words),
        Name::Edit => edit(words),
        _ => Some(Given { call: bare(name, words)?, goods: Goods::Nothing }),
    }
}

/// The calls that copy nothing.
fn bare(name: Name, words: Words) -> Option<Call> {
    match name {
        Name::Check => claim(words).map(Call::Check),
        Name::Link | Name::Initialize | Name::Cancel => status(name, words),
        Name::AddTail | Name::RemoveTail => tail(name, words),
        Name::FindTail | Name::FindStruct | Name::MoveTail | Name::MoveStruct => tail(name, words),
        _ => simple(name, words),
    }
}

/// Those of one word or none.
fn simple(name: Name, words: Words) -> Option<Call> {
    Some(match (name, words) {
        (Name::AskStructure, []) => Call::Ask(Work::Structure),
        (Name::AskUpdate, []) => Call::Ask(Work::Update),
        (Name::AskRollback, []) => Call::Ask(Work::Rollback),
        (Name::Commit, []) => Call::Commit,
        (Name::Recover, [length]) => Call::Recover { length: number(length)? },
        (Name::RecoverRetained, []) => Call::RecoverRetained,
        (Name::Refresh, [length]) => Call::Refresh { length: number(length)? },
        (Name::Stamp, [domain]) => Call::Stamp { domain: number(domain)? },
        _ => return None,
    })
}

fn payloads(candidate: &[u8], recovery: &[u8]) -> Option<Payloads> {
    Some(Payloads { candidate: payload(candidate)?, recovery: payload(recovery)? })
}

fn open(words: Words) -> Option<Given> {
    let (bytes, rest) = words.split_last()?;
    let opening = Opening::of_words(numbers(rest)?);
    let snapshot = payload(bytes)?;
    let call = Call::Open { opening, length: snapshot.len() as u64 };
    Some(Given { call, goods: Goods::Snapshot(snapshot) })
}

fn begin(name: Name, words: Words) -> Option<Given> {
    let (payloads, pairs) = match words {
        [candidate, recovery, actions] => (payloads(candidate, recovery)?, pairs(actions)?),
        _ => return None,
    };
    let structural = name == Name::BeginStructural;
    let call = Call::Begin { structural, lengths: payloads.lengths(), actions: actions(&pairs) };
    Some(Given { call, goods: Goods::Staged(payloads, pairs) })
}

fn edit(words: Words) -> Option<Given> {
    let payloads = match words {
        [candidate, recovery] => payloads(candidate, recovery)?,
        _ => return None,
    };
    Some(Given { call: Call::Edit(payloads.lengths()), goods: Goods::Both(payloads) })
}

fn report(name: Name, words: Words) -> Option<Given> {
    let (head, rest) = if words.len() < 3 { return None } else { words.split_at(3) };
    let [ticket, outcome, code] = numbers(head)?;
    let outcome = Outcome::of(outcome, code)?;
    let (call, goods) = match (name, rest) {
        (Name::ReportStructure, [candidate, recovery]) => {
            let payloads = payloads(candidate, recovery)?;
            let lengths = payloads.lengths();
            (Call::ReportStructure { ticket, outcome, lengths }, Goods::Both(payloads))
        }
        (Name::ReportUpdate, [payload]) => {
            (Call::ReportUpdate { ticket, outcome }, Goods::Payload(number(payload)?))
        }
        (Name::ReportRollback, [payload]) => {
            (Call::ReportRollback { ticket, outcome }, Goods::Payload(number(payload)?))
        }
        _ => return None,
    };
    Some(Given { call, goods })
}

fn claim(words: Words) -> Option<Claim> {
    let (domain, stamp) = words.split_first()?;
    Some(Claim { domain: number(domain)?, stamp: Stamp::of_words(numbers(stamp)?) })
}

fn status(name: Name, words: Words) -> Option<Call> {
    let (id, mark) = match (name, words) {
        (Name::Link, [id, domain]) => (id, Mark::Link { domain: flag(domain)? }),
        (Name::Initialize, [id]) => (id, Mark::Initialize),
        (Name::Cancel, [id]) => (id, Mark::Cancel),
        _ => return None,
    };
    Some(Call::Status { id: number(id)?, mark })
}

fn tail(name: Name, words: Words) -> Option<Call> {
    if words.len() < File::WORDS {
        return None;
    }
    let (file, rest) = words.split_at(File::WORDS);
    let structs = matches!(name, Name::FindStruct | Name::MoveStruct);
    let task = match (name, rest) {
        (Name::AddTail, [offset]) => Task::Add { offset: number(offset)? },
        (Name::RemoveTail, []) => Task::Remove,
        (Name::FindTail | Name::FindStruct, [size, rest @ ..]) => {
            Task::Find { structs, size: number(size)?, claim: claim(rest)? }
        }
        (Name::MoveTail | Name::MoveStruct, [offset, rest @ ..]) => {
            Task::Move { structs, offset: number(offset)?, claim: claim(rest)? }
        }
        _ => return None,
    };
    Some(Call::Tail(Tail { file: File::of_words(numbers(file)?), task }))
}
