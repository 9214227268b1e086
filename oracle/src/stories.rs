// SPDX-License-Identifier: Apache-2.0
//! 02, C-20: clearing away must not change the story, what `current_holder` tells of a defunct
//! entry. Which operations it is stated of, and what became of a story.

use crate::{
    answer::Seen,
    judge::Judge,
    model::{Defunct, Id, Operation, Read, State},
};

/// Who holds, through how many entries.
#[derive(Clone, Copy, Debug, PartialEq, Eq)]
pub struct Story {
    pub subject: u16,
    pub links: u32,
}

/// A remaining entry's story, against that of the entry with its id before.
#[derive(Clone, Copy, Debug, PartialEq, Eq)]
pub enum Retold {
    Same,
    /// The same holder, through fewer entries.
    Fewer,
    /// Another holder, or more entries.
    Another,
    /// There was no such entry.
    New,
}

impl Retold {
    #[must_use]
    pub fn of(before: Option<Story>, after: Story) -> Self {
        match before {
            None => Self::New,
            Some(story) if story == after => Self::Same,
            Some(story) if story.subject == after.subject && story.links > after.links => {
                Self::Fewer
            }
            Some(_) => Self::Another,
        }
    }

    /// 02's claim on a remaining entry.
    ///
    /// # Panics
    ///
    /// Where a story isn't kept that 02 says is.
    pub fn check(self, operation: &Operation, before: &State, after: &State) {
        assert!(
            matches!(self, Self::Same | Self::Fewer) || !is_stated(operation, after),
            "a story isn't kept: {self:?} by {operation:?}\nbefore {before:?}\nafter {after:?}"
        );
    }

    /// For a tally: the operation, with (8) where it began at the last revision; whether 02 states
    /// it there.
    #[must_use]
    pub fn label(self, operation: &Operation, before: &State, after: &State) -> String {
        let name = operation.name();
        let last = if before.revision == u64::MAX {
            " (8)"
        } else {
            ""
        };
        let not = if is_stated(operation, after) {
            ""
        } else {
            "not "
        };
        let retold = match self {
            Self::Same => "same story",
            Self::Fewer => "fewer entries",
            Self::Another => "another story",
            Self::New => "new entry",
        };
        format!("{name}{last}, {not}stated: {retold}")
    }
}

/// What a run is to have seen, so that it shows something: a count that fell by each operation that
/// takes entries away, a renewal, and another story by each operation that may tell one.
pub const WANTED: [&str; 14] = [
    "acknowledge_defunct, stated: fewer entries",
    "acknowledge_defunct (8), stated: fewer entries",
    "expire_defunct, stated: fewer entries",
    "expire_defunct (8), stated: fewer entries",
    "delete_defunct, stated: fewer entries",
    "delete_defunct (8), stated: fewer entries",
    "insert_active, stated: fewer entries",
    "insert_vehicle, stated: fewer entries",
    "renew, stated: same story",
    "insert_active, not stated: another story",
    "insert_vehicle, not stated: another story",
    "delete, not stated: another story",
    "begin_expiration, not stated: another story",
    "commit_replacement, not stated: another story",
];

/// Clearing and renewal keep every story; an insertion where, after it, no remaining entry names
/// the new id as its replacement. Of the others nothing is said.
#[must_use]
pub fn is_stated(operation: &Operation, after: &State) -> bool {
    match operation {
        Operation::AcknowledgeDefunct { .. }
        | Operation::ExpireDefunct { .. }
        | Operation::DeleteDefunct { .. }
        | Operation::Renew { .. } => true,
        Operation::InsertActive { lock } | Operation::InsertVehicle { lock, .. } => {
            after.defunct.iter().all(|d| d.target != lock.lock.id)
        }
        Operation::Delete { .. }
        | Operation::BeginExpiration { .. }
        | Operation::CommitReplacement { .. } => false,
    }
}

/// The original's word on the entry with this id, where it finds one, with the judge's count of
/// links.
///
/// # Panics
///
/// On a state that isn't sound.
pub fn told(judge: &mut Judge, id: Id) -> Option<Story> {
    match judge.read(&Read::DefunctById(id)) {
        Seen::Defunct(found) => found.map(|entry| told_of(judge, &entry)),
        seen => panic!("{seen:?} of {id}"),
    }
}

/// The same of any record.
///
/// # Panics
///
/// On a state that isn't sound.
pub fn told_of(judge: &mut Judge, entry: &Defunct) -> Story {
    match judge.read(&Read::CurrentHolder(*entry)) {
        Seen::Holder { subject, links } => Story { subject, links },
        seen => panic!("{seen:?} of {entry:?}"),
    }
}
