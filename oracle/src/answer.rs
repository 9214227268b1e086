// SPDX-License-Identifier: Apache-2.0
//! Answers by document 01's names and numbers.

use crate::model::{Active, Defunct, Id, State, TesterPresent};

/// Why a state is refused as a result (11).
#[derive(Clone, Debug, PartialEq, Eq, Hash)]
pub enum Reason {
    /// 1: the lock to insert isn't a root vehicle lock.
    NoRootVehicle,
    /// 2: the listed child is a vehicle lock or has a parent.
    BadChild(Id),
    /// 3: child and parent have different owners.
    Owner { child: Id, parent: Id },
    /// 4: the child's coverage is outside the parent's.
    Coverage { child: Id, parent: Id },
    /// 0: any other text; never given from a sound state.
    Other(String),
}

impl Reason {
    #[must_use]
    pub fn number(&self) -> u8 {
        match self {
            Self::Other(_) => 0,
            Self::NoRootVehicle => 1,
            Self::BadChild(_) => 2,
            Self::Owner { .. } => 3,
            Self::Coverage { .. } => 4,
        }
    }

    /// The bad child, or child and parent.
    #[must_use]
    pub fn ids(&self) -> (Option<Id>, Option<Id>) {
        match self {
            Self::NoRootVehicle | Self::Other(_) => (None, None),
            Self::BadChild(child) => (Some(*child), None),
            Self::Owner { child, parent } | Self::Coverage { child, parent } => {
                (Some(*child), Some(*parent))
            }
        }
    }
}

/// A [`Told`] as numbers; what doesn't apply is zero or none. Done, Stale and false look alike.
#[derive(Clone, Copy, Debug, PartialEq, Eq, Default)]
pub struct Flat {
    pub number: u8,
    /// Of 11.
    pub reason: u8,
    /// Of 12.
    pub rule: u8,
    /// Of NotDue.
    pub time: u64,
    /// The id named; of 11.3 and 11.4 the child's.
    pub first: Option<Id>,
    /// Of 11.3 and 11.4 the parent's.
    pub second: Option<Id>,
}

/// What an operation answers, beside its lists and the next state.
#[derive(Clone, Debug, PartialEq, Eq, Hash)]
pub enum Told {
    Done,
    /// Expiration of a lock that isn't there.
    Stale,
    /// Expiration before its time, with the lock's expiry.
    NotDue(u64),
    /// Acknowledgement of what isn't there.
    False,
    DuplicateId(Id),
    DuplicateScope,
    ActiveLockNotFound(Id),
    ParentNotFound(Id),
    ParentNotVehicle(Id),
    ReplacementScopeConflict,
    CoverageConflict(Id),
    RevisionOverflow,
    LockExpired,
    RenewalNotExtension,
    Invariant(Reason),
    /// With the lowest broken rule.
    UnsoundState(u8),
    NoRoom,
    BadList,
    EcuLocksHeld,
    FunctionalGroupLocksHeld,
    Forbidden,
}

impl Told {
    /// 01's number.
    #[must_use]
    pub fn number(&self) -> u8 {
        match self {
            Self::Done | Self::Stale | Self::NotDue(_) | Self::False => 0,
            Self::DuplicateId(_) => 1,
            Self::DuplicateScope => 2,
            Self::ActiveLockNotFound(_) => 3,
            Self::ParentNotFound(_) => 4,
            Self::ParentNotVehicle(_) => 5,
            Self::ReplacementScopeConflict => 6,
            Self::CoverageConflict(_) => 7,
            Self::RevisionOverflow => 8,
            Self::LockExpired => 9,
            Self::RenewalNotExtension => 10,
            Self::Invariant(_) => 11,
            Self::UnsoundState(_) => 12,
            Self::NoRoom => 13,
            Self::BadList => 14,
            Self::EcuLocksHeld => 24,
            Self::FunctionalGroupLocksHeld => 25,
            Self::Forbidden => 26,
        }
    }

    /// Number and values side by side, as a boundary of plain numbers gives them.
    #[must_use]
    pub fn flat(&self) -> Flat {
        let mut flat = Flat {
            number: self.number(),
            ..Flat::default()
        };
        match self {
            Self::DuplicateId(id)
            | Self::ActiveLockNotFound(id)
            | Self::ParentNotFound(id)
            | Self::ParentNotVehicle(id)
            | Self::CoverageConflict(id) => flat.first = Some(*id),
            Self::Invariant(reason) => {
                flat.reason = reason.number();
                (flat.first, flat.second) = reason.ids();
            }
            Self::UnsoundState(rule) => flat.rule = *rule,
            Self::NotDue(time) => flat.time = *time,
            _ => {}
        }
        flat
    }

    /// Number and, where one number has several cases, the case: "11.3", "0 stale".
    #[must_use]
    pub fn label(&self) -> String {
        match self {
            Self::Stale => "0 stale".to_owned(),
            Self::NotDue(_) => "0 not due".to_owned(),
            Self::False => "0 false".to_owned(),
            Self::Invariant(reason) => format!("11.{}", reason.number()),
            other => other.number().to_string(),
        }
    }
}

/// All an operation gives back.
#[derive(Clone, Debug, PartialEq, Eq)]
pub struct Outcome {
    pub told: Told,
    /// Removed locks as they were at entry, in the Rust's order; empty on refusals.
    pub removed: Vec<Active>,
    /// Expired defunct ids, ascending; empty on refusals.
    pub expired: Vec<Id>,
    pub state: State,
}

/// What a read answers.
#[derive(Clone, Debug, PartialEq, Eq)]
pub enum Seen {
    /// The state given is unsound (12); with the lowest broken rule.
    Unsound(u8),
    Revision(u64),
    Active(Option<Active>),
    Defunct(Option<Defunct>),
    Ids(Vec<Id>),
    TesterPresent(Option<TesterPresent>),
    Flag(bool),
    Holder {
        subject: u16,
        links: u32,
    },
    Subject(Option<u16>),
}

/// Response class of a refusal (001).
#[derive(Clone, Copy, Debug, PartialEq, Eq)]
pub enum Class {
    BadRequest,
    Conflict,
    InternalServerError,
    Forbidden,
}

/// Refusal of bytes or of the state they give.
#[derive(Clone, Copy, Debug, PartialEq, Eq, Hash)]
pub enum Refusal {
    Torn(usize),
    BadKind(usize),
    BadField(usize),
    BadOrder(usize),
    UnsoundState(u8),
}

impl Refusal {
    /// 01's number.
    #[must_use]
    pub fn number(&self) -> u8 {
        match self {
            Self::Torn(_) => 17,
            Self::BadKind(_) => 18,
            Self::BadField(_) => 19,
            Self::BadOrder(_) => 20,
            Self::UnsoundState(_) => 12,
        }
    }

    /// The offset, or for 12 the rule.
    #[must_use]
    pub fn place(&self) -> usize {
        match self {
            Self::Torn(at) | Self::BadKind(at) | Self::BadField(at) | Self::BadOrder(at) => *at,
            Self::UnsoundState(rule) => usize::from(*rule),
        }
    }
}
