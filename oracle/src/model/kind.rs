//! The recorded calls by the kinds of their events.
//!
//! Written from document 01 alone.

use super::Name;

impl Name {
    /// The recorded calls, in the order of the kinds of their events from 1 on.
    pub const RECORDED: [Name; 12] = [
        Name::Begin,
        Name::BeginStructural,
        Name::AskStructure,
        Name::ReportStructure,
        Name::AskUpdate,
        Name::ReportUpdate,
        Name::AskRollback,
        Name::ReportRollback,
        Name::Commit,
        Name::Recover,
        Name::RecoverRetained,
        Name::Refresh,
    ];

    pub fn of_kind(kind: u64) -> Option<Name> {
        let at = kind.checked_sub(1)?;
        Name::RECORDED.get(usize::try_from(at).ok()?).copied()
    }
}
