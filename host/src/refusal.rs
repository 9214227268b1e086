// SPDX-License-Identifier: Apache-2.0
//! Document 01's refusals by name, number and data.

use std::fmt;

use crate::{
    library::{self, Told},
    types::LockId,
};

/// Why a change would leave an unsound state (11).
#[derive(Clone, Copy, Debug, PartialEq, Eq, Hash)]
#[non_exhaustive]
pub enum Reason {
    /// 0: the closing check of an insertion or a replacement failed. Proved never to be given.
    Closing,
    /// 1: the lock to insert isn't a vehicle lock without a parent.
    NoRootVehicle,
    /// 2: a listed child is a vehicle lock or has a parent already.
    BadChild {
        /// The child.
        child: LockId,
    },
    /// 3: child and parent have different subjects.
    Owner {
        /// The child.
        child: LockId,
        /// Its parent.
        parent: LockId,
    },
    /// 4: the parent doesn't cover all that the child covers.
    Coverage {
        /// The child.
        child: LockId,
        /// Its parent.
        parent: LockId,
    },
}

impl Reason {
    /// The reason's number.
    #[must_use]
    pub fn number(&self) -> u8 {
        match self {
            Self::Closing => 0,
            Self::NoRootVehicle => 1,
            Self::BadChild { .. } => 2,
            Self::Owner { .. } => 3,
            Self::Coverage { .. } => 4,
        }
    }
}

impl fmt::Display for Reason {
    fn fmt(&self, f: &mut fmt::Formatter<'_>) -> fmt::Result {
        write!(f, "reason {}, ", self.number())?;
        match self {
            Self::Closing => f.write_str("the state that would result is unsound"),
            Self::NoRootVehicle => f.write_str("the lock isn't a vehicle lock without a parent"),
            Self::BadChild { child } => {
                write!(f, "child {child} is a vehicle lock or has a parent already")
            }
            Self::Owner { child, parent } => {
                write!(
                    f,
                    "child {child} and parent {parent} have different subjects"
                )
            }
            Self::Coverage { child, parent } => {
                write!(
                    f,
                    "parent {parent} doesn't cover all that child {child} covers"
                )
            }
        }
    }
}

/// Response class of a refusal, as the adapter answers its client.
#[derive(Clone, Copy, Debug, PartialEq, Eq, Hash)]
#[non_exhaustive]
pub enum ResponseClass {
    /// 400
    BadRequest,
    /// 409
    Conflict,
    /// 500
    InternalServerError,
    /// 403
    Forbidden,
}

/// A refusal: document 01's number with its data. More will come, so a `match` needs a last arm.
///
/// No lock changed, except where [`Refusal::RevisionOverflow`] says so. Whether the record counts
/// as applied is another matter, and [`crate::Step::applied`] says it.
#[derive(Clone, Copy, Debug, PartialEq, Eq, Hash)]
#[non_exhaustive]
pub enum Refusal {
    /// 1: the id is in use.
    DuplicateId {
        /// The id.
        id: LockId,
    },
    /// 2: the scope has a lock.
    DuplicateScope,
    /// 3: no such active lock.
    ActiveLockNotFound {
        /// The id that was given.
        id: LockId,
    },
    /// 4: the parent isn't active.
    ParentNotFound {
        /// The parent that was named.
        parent: LockId,
    },
    /// 5: the parent isn't a vehicle lock.
    ParentNotVehicle {
        /// The parent that was named.
        parent: LockId,
    },
    /// 6: the scope is held by a lock that the replacement doesn't remove.
    ReplacementScopeConflict,
    /// 7: the coverage of another subject's lock overlaps.
    CoverageConflict {
        /// The lock that is in the way.
        id: LockId,
        /// The lowest ECU that both cover; of the whole vehicle and a set, the set's lowest. None
        /// where both cover the whole vehicle, or one does and the other is the empty set.
        ecu: Option<u8>,
    },
    /// 8: the last revision was reached. Acknowledgement, `expire_defunct` and `delete_defunct`
    /// have taken their entries out all the same.
    RevisionOverflow,
    /// 9: the lock has expired.
    LockExpired,
    /// 10: a renewal that doesn't extend.
    RenewalNotExtension,
    /// 11: the result of an insertion or a replacement would be unsound.
    Invariant {
        /// In which way.
        reason: Reason,
    },
    /// 12: the state handed in breaks a rule.
    UnsoundState {
        /// The lowest broken one, 0 to 9.
        rule: u8,
    },
    /// 13: 64 active or 128 defunct locks are there.
    NoRoom,
    /// 14: an id list with half an id; no record can hold one.
    BadList,
    /// 15: the record was applied before.
    Repeat {
        /// The number that is due.
        expected: u32,
    },
    /// 16: an earlier record is missing.
    Ahead {
        /// The number that is due.
        expected: u32,
    },
    /// 17: bytes are missing.
    Torn {
        /// Where the record starts.
        offset: usize,
    },
    /// 18: a kind of record that isn't due here.
    BadKind {
        /// Where the record starts.
        offset: usize,
    },
    /// 19: a length, count or field that can't be.
    BadField {
        /// Where the record starts.
        offset: usize,
    },
    /// 20: ids not ascending, or bytes after the last record.
    BadOrder {
        /// Where the record, or the first extra byte, starts.
        offset: usize,
    },
    /// 21: a buffer is too short.
    ShortOutput {
        /// Bytes needed: for [`library::apply`] of the next image, the removed locks and the
        /// expired ids; else one number and zeros. [`library::perform`] tells the record's beside
        /// them.
        needed: [usize; 3],
    },
    /// 22: a name of more than 64 bytes.
    NameTooLong,
    /// 23: 256 names are there.
    NamesFull,
    /// 24: an ECU lock is held.
    EcuLocksHeld,
    /// 25: a functional group's lock is held.
    FunctionalGroupLocksHeld,
    /// 26: the lock is another subject's.
    Forbidden,
    /// 27: these bytes aren't a name table.
    BadTable,
    /// 28: the board of control units isn't the image's own, or has another size. It is left.
    BoardMismatch,
    /// 29: an operation lists more than 64 ids, which no record holds.
    ListTooLong,
    /// A number that this crate doesn't know: the library is of a later version.
    Unknown {
        /// The number.
        number: u32,
    },
}

impl Refusal {
    /// The refusal in an answer; none where its number is 0.
    #[must_use]
    pub fn from_told(told: &Told) -> Option<Self> {
        let [v0, v1, v2, v3, v4] = told.values;
        let id = LockId::from_halves(v0, v1);
        let (offset, expected) = (v0 as usize, v0 as u32);
        Some(match told.number {
            0 => return None,
            1 => Self::DuplicateId { id },
            2 => Self::DuplicateScope,
            3 => Self::ActiveLockNotFound { id },
            4 => Self::ParentNotFound { parent: id },
            5 => Self::ParentNotVehicle { parent: id },
            6 => Self::ReplacementScopeConflict,
            7 => Self::CoverageConflict {
                id,
                ecu: (v2 != 0).then_some(v3 as u8),
            },
            8 => Self::RevisionOverflow,
            9 => Self::LockExpired,
            10 => Self::RenewalNotExtension,
            11 => {
                let (child, parent) = (LockId::from_halves(v1, v2), LockId::from_halves(v3, v4));
                let reason = match v0 {
                    1 => Reason::NoRootVehicle,
                    2 => Reason::BadChild { child },
                    3 => Reason::Owner { child, parent },
                    4 => Reason::Coverage { child, parent },
                    _ => Reason::Closing,
                };
                Self::Invariant { reason }
            }
            12 => Self::UnsoundState { rule: v0 as u8 },
            13 => Self::NoRoom,
            14 => Self::BadList,
            15 => Self::Repeat { expected },
            16 => Self::Ahead { expected },
            17 => Self::Torn { offset },
            18 => Self::BadKind { offset },
            19 => Self::BadField { offset },
            20 => Self::BadOrder { offset },
            21 => Self::ShortOutput {
                needed: [v0, v1, v2].map(|bytes| bytes as usize),
            },
            22 => Self::NameTooLong,
            23 => Self::NamesFull,
            24 => Self::EcuLocksHeld,
            25 => Self::FunctionalGroupLocksHeld,
            26 => Self::Forbidden,
            27 => Self::BadTable,
            28 => Self::BoardMismatch,
            29 => Self::ListTooLong,
            number => Self::Unknown { number },
        })
    }

    /// Document 01's number.
    #[must_use]
    pub fn number(&self) -> u32 {
        self.row().0
    }

    /// Document 01's name.
    #[must_use]
    pub fn name(&self) -> &'static str {
        self.row().1
    }

    /// The row of document 01's table.
    fn row(&self) -> (u32, &'static str) {
        match self {
            Self::DuplicateId { .. } => (1, "DuplicateId"),
            Self::DuplicateScope => (2, "DuplicateScope"),
            Self::ActiveLockNotFound { .. } => (3, "ActiveLockNotFound"),
            Self::ParentNotFound { .. } => (4, "ParentNotFound"),
            Self::ParentNotVehicle { .. } => (5, "ParentNotVehicle"),
            Self::ReplacementScopeConflict => (6, "ReplacementScopeConflict"),
            Self::CoverageConflict { .. } => (7, "CoverageConflict"),
            Self::RevisionOverflow => (8, "RevisionOverflow"),
            Self::LockExpired => (9, "LockExpired"),
            Self::RenewalNotExtension => (10, "RenewalNotExtension"),
            Self::Invariant { .. } => (11, "Invariant"),
            Self::UnsoundState { .. } => (12, "UnsoundState"),
            Self::NoRoom => (13, "NoRoom"),
            Self::BadList => (14, "BadList"),
            Self::Repeat { .. } => (15, "Repeat"),
            Self::Ahead { .. } => (16, "Ahead"),
            Self::Torn { .. } => (17, "Torn"),
            Self::BadKind { .. } => (18, "BadKind"),
            Self::BadField { .. } => (19, "BadField"),
            Self::BadOrder { .. } => (20, "BadOrder"),
            Self::ShortOutput { .. } => (21, "ShortOutput"),
            Self::NameTooLong => (22, "NameTooLong"),
            Self::NamesFull => (23, "NamesFull"),
            Self::EcuLocksHeld => (24, "EcuLocksHeld"),
            Self::FunctionalGroupLocksHeld => (25, "FunctionalGroupLocksHeld"),
            Self::Forbidden => (26, "Forbidden"),
            Self::BadTable => (27, "BadTable"),
            Self::BoardMismatch => (28, "BoardMismatch"),
            Self::ListTooLong => (29, "ListTooLong"),
            Self::Unknown { number } => (*number, "Unknown"),
        }
    }

    /// How the adapter answers its client, by 001; none for refusals that no client sees.
    #[must_use]
    pub fn response_class(&self) -> Option<ResponseClass> {
        response_class(self.number())
    }
}

/// The response class of a refusal number, by 001.
#[must_use]
pub fn response_class(number: u32) -> Option<ResponseClass> {
    match library::response_class(number.into()) {
        1 => Some(ResponseClass::BadRequest),
        2 => Some(ResponseClass::Conflict),
        3 => Some(ResponseClass::InternalServerError),
        4 => Some(ResponseClass::Forbidden),
        _ => None,
    }
}

/// Document 01's rules of a sound state, said of a state that breaks one.
const BROKEN: [&str; 10] = [
    "counts, order or blanks are wrong, or a part that doesn't apply isn't zero",
    "an id is both active and defunct",
    "a scope has two active locks",
    "a parent isn't active",
    "a parent isn't a vehicle lock",
    "a parent has another subject than its child",
    "a parent doesn't cover all that its child covers",
    "a vehicle lock has a parent",
    "two subjects' locks overlap",
    "replacements lead round in a circle",
];

impl fmt::Display for Refusal {
    /// The number, the name, and what is the matter, for a person:
    /// `7 CoverageConflict: lock 00000000-0000-0000-0000-000000000001 is in the way at ECU 6`.
    fn fmt(&self, f: &mut fmt::Formatter<'_>) -> fmt::Result {
        write!(f, "{} {}: ", self.number(), self.name())?;
        let text = match self {
            Self::DuplicateId { id } => return write!(f, "the id {id} is in use"),
            Self::DuplicateScope => "the scope is locked already",
            Self::ActiveLockNotFound { id } => return write!(f, "no lock {id} is held"),
            Self::ParentNotFound { parent } => return write!(f, "no parent {parent} is held"),
            Self::ParentNotVehicle { parent } => {
                return write!(f, "the parent {parent} isn't a vehicle lock");
            }
            Self::ReplacementScopeConflict => "a lock that isn't among those broken has the scope",
            Self::CoverageConflict { id, ecu: Some(ecu) } => {
                return write!(f, "lock {id} is in the way at ECU {ecu}");
            }
            Self::CoverageConflict { id, ecu: None } => {
                return write!(f, "lock {id} is in the way, no ECU to name");
            }
            Self::RevisionOverflow => "the last revision is reached",
            Self::LockExpired => "the lock has expired",
            Self::RenewalNotExtension => "the new expiry isn't later than the old one",
            Self::Invariant { reason } => return reason.fmt(f),
            Self::UnsoundState { rule } => {
                let broken = BROKEN.get(usize::from(*rule)).unwrap_or(&"no such rule");
                return write!(f, "rule {rule}, {broken}");
            }
            Self::NoRoom => "64 active or 128 defunct locks are there",
            Self::BadList => "half an id at the end of a list",
            Self::Repeat { expected } => {
                return write!(f, "applied before; record {expected} is due");
            }
            Self::Ahead { expected } => return write!(f, "record {expected} is missing"),
            Self::Torn { offset } => {
                return write!(f, "the record at byte {offset} is cut short");
            }
            Self::BadKind { offset } => {
                return write!(f, "no record of a kind that is due stands at byte {offset}");
            }
            Self::BadField { offset } => {
                return write!(
                    f,
                    "a length, count or field of the record at byte {offset} can't be"
                );
            }
            Self::BadOrder { offset } => {
                return write!(
                    f,
                    "ids don't ascend, or there are bytes too many, at byte {offset}"
                );
            }
            Self::ShortOutput { needed } => return write!(f, "{needed:?} bytes are needed"),
            Self::NameTooLong => "a name has at most 64 bytes",
            Self::NamesFull => "256 names are there",
            Self::EcuLocksHeld => "an ECU's lock is held",
            Self::FunctionalGroupLocksHeld => "a functional group's lock is held",
            Self::Forbidden => "the lock is another subject's",
            Self::BadTable => "these bytes aren't a name table of this kind",
            Self::BoardMismatch => "the board is another image's, or has another size",
            Self::ListTooLong => "a record holds at most 64 ids",
            Self::Unknown { .. } => "a later version of the library has this number",
        };
        f.write_str(text)
    }
}

impl std::error::Error for Refusal {}
