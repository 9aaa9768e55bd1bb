//! The calls on the tail table with what each is given.
//!
//! Written from documents 01 and 02 and the page on the driver's script alone.

use super::{Claim, Name};

/// A file, by its device and its inode. Files are ordered by device, then
/// inode.
#[derive(Clone, Copy, Debug, PartialEq, Eq, PartialOrd, Ord)]
pub struct File {
    pub device: u64,
    pub inode: u64,
}

/// What is done with a file. Finding and moving take a stamp, and the table as
/// words or as a slice of structs.
#[derive(Clone, Copy, Debug, PartialEq, Eq)]
pub enum Task {
    Add { offset: u64 },
    Remove,
    Find { structs: bool, size: u64, claim: Claim },
    Move { structs: bool, offset: u64, claim: Claim },
}

#[derive(Clone, Copy, Debug, PartialEq, Eq)]
pub struct Tail {
    pub file: File,
    pub task: Task,
}

impl File {
    /// The words of a file in a script.
    pub const WORDS: usize = 2;

    pub fn words(self) -> [u64; File::WORDS] {
        [self.device, self.inode]
    }

    pub fn of_words([device, inode]: [u64; File::WORDS]) -> File {
        File { device, inode }
    }
}

impl Tail {
    pub fn name(&self) -> Name {
        match self.task {
            Task::Add { .. } => Name::AddTail,
            Task::Remove => Name::RemoveTail,
            Task::Find { structs: false, .. } => Name::FindTail,
            Task::Move { structs: false, .. } => Name::MoveTail,
            Task::Find { structs: true, .. } => Name::FindStruct,
            Task::Move { structs: true, .. } => Name::MoveStruct,
        }
    }

    /// The stamp that finding and moving are given.
    pub fn claim(&self) -> Option<Claim> {
        match self.task {
            Task::Find { claim, .. } | Task::Move { claim, .. } => Some(claim),
            Task::Add { .. } | Task::Remove => None,
        }
    }
}
