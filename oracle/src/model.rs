// SPDX-License-Identifier: Apache-2.0
//! Document 01's numbers as plain values. A part that doesn't apply (a scope number, a set, a
//! parent, metadata) has no place here, so "taken as zero" needs no code.

use std::{fmt, str::FromStr};

/// Most active locks a state holds.
pub const ACTIVE_LIMIT: usize = 64;
/// Most defunct locks a state holds.
pub const DEFUNCT_LIMIT: usize = 128;

/// Lock id: 16 bytes, compared from the first byte.
#[derive(Clone, Copy, PartialEq, Eq, PartialOrd, Ord, Hash, Default)]
pub struct Id(pub [u8; 16]);

impl Id {
    /// The two words an id list holds for this id: first half first, each big-endian.
    #[must_use]
    pub fn words(self) -> [u64; 2] {
        let whole = u128::from_be_bytes(self.0);
        [(whole >> 64) as u64, whole as u64]
    }

    #[must_use]
    pub fn from_words(high: u64, low: u64) -> Self {
        Self((u128::from(high) << 64 | u128::from(low)).to_be_bytes())
    }

    /// The id that is this number, for tests: 1 is fifteen zero bytes and a one.
    #[must_use]
    pub fn from_number(number: u128) -> Self {
        Self(number.to_be_bytes())
    }
}

impl fmt::Display for Id {
    /// Lowercase UUID text, which sorts like the bytes.
    fn fmt(&self, f: &mut fmt::Formatter<'_>) -> fmt::Result {
        const DIGITS: &[u8; 16] = b"0123456789abcdef";
        let mut text = [b'-'; 36];
        let mut at = 0;
        for (i, byte) in self.0.iter().enumerate() {
            if matches!(i, 4 | 6 | 8 | 10) {
                at += 1;
            }
            text[at] = DIGITS[usize::from(byte >> 4)];
            text[at + 1] = DIGITS[usize::from(byte & 15)];
            at += 2;
        }
        f.write_str(std::str::from_utf8(&text).map_err(|_| fmt::Error)?)
    }
}

impl fmt::Debug for Id {
    fn fmt(&self, f: &mut fmt::Formatter<'_>) -> fmt::Result {
        write!(f, "{self}")
    }
}

impl FromStr for Id {
    type Err = ();

    fn from_str(text: &str) -> Result<Self, ()> {
        let mut bytes = [0; 16];
        let mut digits = text.bytes().filter(|b| *b != b'-').map(digit);
        for byte in &mut bytes {
            let high = digits.next().flatten().ok_or(())?;
            let low = digits.next().flatten().ok_or(())?;
            *byte = high << 4 | low;
        }
        let id = Self(bytes);
        // Only the text this crate writes is taken: dashes in place, lowercase, nothing after.
        if id.to_string() == text {
            Ok(id)
        } else {
            Err(())
        }
    }
}

fn digit(byte: u8) -> Option<u8> {
    match byte {
        b'0'..=b'9' => Some(byte - b'0'),
        b'a'..=b'f' => Some(byte - b'a' + 10),
        _ => None,
    }
}

#[derive(Clone, Copy, Debug, PartialEq, Eq, PartialOrd, Ord, Hash)]
pub enum Scope {
    Vehicle,
    Ecu(u8),
    Group(u8),
}

/// A set of ECU numbers; ECU e is bit e mod 64 of word e / 64.
#[derive(Clone, Copy, PartialEq, Eq, Default, Hash)]
pub struct EcuSet(pub [u64; 4]);

impl EcuSet {
    #[must_use]
    pub fn of(ecus: &[u8]) -> Self {
        let mut set = Self::default();
        for ecu in ecus {
            set.insert(*ecu);
        }
        set
    }

    pub fn insert(&mut self, ecu: u8) {
        self.0[usize::from(ecu / 64)] |= 1 << (ecu % 64);
    }

    #[must_use]
    pub fn has(&self, ecu: u8) -> bool {
        self.0[usize::from(ecu / 64)] >> (ecu % 64) & 1 == 1
    }

    pub fn iter(&self) -> impl Iterator<Item = u8> {
        let set = *self;
        (0..=255).filter(move |ecu| set.has(*ecu))
    }

    fn meets(&self, other: &Self) -> bool {
        (0..4).any(|i| self.0[i] & other.0[i] != 0)
    }

    fn within(&self, other: &Self) -> bool {
        (0..4).all(|i| self.0[i] & !other.0[i] == 0)
    }
}

impl fmt::Debug for EcuSet {
    fn fmt(&self, f: &mut fmt::Formatter<'_>) -> fmt::Result {
        f.debug_set().entries(self.iter()).finish()
    }
}

#[derive(Clone, Copy, Debug, PartialEq, Eq, Hash)]
pub enum Coverage {
    Vehicle,
    Set(EcuSet),
}

impl Coverage {
    #[must_use]
    pub fn of(ecus: &[u8]) -> Self {
        Self::Set(EcuSet::of(ecus))
    }

    /// The whole vehicle overlaps everything, the empty set included.
    #[must_use]
    pub fn overlaps(&self, other: &Self) -> bool {
        match (self, other) {
            (Self::Set(left), Self::Set(right)) => left.meets(right),
            _ => true,
        }
    }

    /// The whole vehicle contains everything; a set never contains the whole vehicle.
    #[must_use]
    pub fn contains(&self, other: &Self) -> bool {
        match (self, other) {
            (Self::Vehicle, _) => true,
            (Self::Set(_), Self::Vehicle) => false,
            (Self::Set(left), Self::Set(right)) => right.within(left),
        }
    }

    #[must_use]
    pub fn covers(&self, ecu: u8) -> bool {
        match self {
            Self::Vehicle => true,
            Self::Set(set) => set.has(ecu),
        }
    }
}

/// 01's "lock start": what active and defunct locks share.
#[derive(Clone, Copy, Debug, PartialEq, Eq, Hash)]
pub struct Lock {
    pub id: Id,
    pub scope: Scope,
    pub exclusive: bool,
    pub coverage: Coverage,
    pub subject: u16,
    pub principal: u32,
    pub metadata: u32,
}

impl Lock {
    /// A lock of these four parts, the others zero.
    #[must_use]
    pub fn plain(id: Id, scope: Scope, coverage: Coverage, subject: u16) -> Self {
        Self {
            id,
            scope,
            exclusive: false,
            coverage,
            subject,
            principal: 0,
            metadata: 0,
        }
    }

    /// It as an active lock without a parent.
    #[must_use]
    pub fn until(self, expires: u64) -> Active {
        Active {
            lock: self,
            expires,
            parent: None,
        }
    }
}

#[derive(Clone, Copy, Debug, PartialEq, Eq, Hash)]
pub struct Active {
    pub lock: Lock,
    pub expires: u64,
    pub parent: Option<Id>,
}

#[derive(Clone, Copy, Debug, PartialEq, Eq, Hash)]
pub struct Defunct {
    pub lock: Lock,
    /// The original expiry.
    pub expires: u64,
    pub broken_at: u64,
    pub broken_by: u32,
    /// The replacement's id.
    pub target: Id,
    /// The replacement's holder.
    pub holder: u16,
}

#[derive(Clone, Debug, PartialEq, Eq, Default, Hash)]
pub struct State {
    pub revision: u64,
    pub active: Vec<Active>,
    pub defunct: Vec<Defunct>,
}

impl State {
    #[must_use]
    pub fn active_at(&self, id: Id) -> Option<&Active> {
        self.active.iter().find(|a| a.lock.id == id)
    }

    #[must_use]
    pub fn defunct_at(&self, id: Id) -> Option<&Defunct> {
        self.defunct.iter().find(|d| d.lock.id == id)
    }

    #[must_use]
    pub fn holder_of(&self, scope: Scope) -> Option<&Active> {
        self.active.iter().find(|a| a.lock.scope == scope)
    }
}

/// An id list as it is lent: 64-bit words, any number of them, repeats allowed.
#[derive(Clone, Debug, PartialEq, Eq, Default)]
pub struct IdList(pub Vec<u64>);

impl IdList {
    #[must_use]
    pub fn of(ids: &[Id]) -> Self {
        Self(ids.iter().flat_map(|id| id.words()).collect())
    }

    /// The ids, or none when the number of words is odd (14).
    #[must_use]
    pub fn ids(&self) -> Option<Vec<Id>> {
        let pairs = self.0.chunks_exact(2);
        pairs
            .remainder()
            .is_empty()
            .then(|| pairs.map(|pair| Id::from_words(pair[0], pair[1])).collect())
    }
}

/// The eight operations of 000 and the one of 001 that changes a state.
#[derive(Clone, Debug, PartialEq, Eq)]
pub enum Operation {
    InsertActive {
        lock: Active,
    },
    InsertVehicle {
        lock: Active,
        children: IdList,
    },
    Renew {
        id: Id,
        expires: u64,
        now: u64,
        metadata: Option<u32>,
    },
    Delete {
        id: Id,
    },
    BeginExpiration {
        id: Id,
        now: u64,
    },
    CommitReplacement {
        roots: IdList,
        lock: Active,
        broken_by: u32,
        broken_at: u64,
    },
    AcknowledgeDefunct {
        id: Id,
    },
    ExpireDefunct {
        now: u64,
    },
    DeleteDefunct {
        id: Id,
        scope: Scope,
        subject: u16,
    },
}

impl Operation {
    /// The Rust's name.
    #[must_use]
    pub fn name(&self) -> &'static str {
        match self {
            Self::InsertActive { .. } => "insert_active",
            Self::InsertVehicle { .. } => "insert_vehicle",
            Self::Renew { .. } => "renew",
            Self::Delete { .. } => "delete",
            Self::BeginExpiration { .. } => "begin_expiration",
            Self::CommitReplacement { .. } => "commit_replacement",
            Self::AcknowledgeDefunct { .. } => "acknowledge_defunct",
            Self::ExpireDefunct { .. } => "expire_defunct",
            Self::DeleteDefunct { .. } => "delete_defunct",
        }
    }

    /// The feed kind; `delete_defunct` has none.
    #[must_use]
    pub fn kind(&self) -> Option<u16> {
        match self {
            Self::InsertActive { .. } => Some(16),
            Self::InsertVehicle { .. } => Some(17),
            Self::Renew { .. } => Some(18),
            Self::Delete { .. } => Some(19),
            Self::BeginExpiration { .. } => Some(20),
            Self::CommitReplacement { .. } => Some(21),
            Self::AcknowledgeDefunct { .. } => Some(22),
            Self::ExpireDefunct { .. } => Some(23),
            Self::DeleteDefunct { .. } => None,
        }
    }
}

#[derive(Clone, Copy, Debug, PartialEq, Eq)]
pub enum TesterPresent {
    Ecu(u8),
    Functional(u8),
}

/// The reads of 000 and 001.
#[derive(Clone, Copy, Debug, PartialEq, Eq)]
pub enum Read {
    Revision,
    ActiveForScope(Scope),
    ActiveById(Id),
    DefunctById(Id),
    /// The i-th active lock, from 0.
    ActiveAt(usize),
    /// The i-th defunct lock, from 0.
    DefunctAt(usize),
    /// For any lock, in the state or not.
    CoveredNarrowLocks(Active),
    CoveringFunctionalGroup {
        subject: u16,
        ecu: u8,
    },
    TesterPresentFor {
        subject: u16,
        scope: Scope,
    },
    TesterPresentNeeded(TesterPresent),
    UncoveredDefunct {
        subject: u16,
        scope: Scope,
        coverage: Coverage,
        now: u64,
    },
    /// For any record, in the state or not.
    CurrentHolder(Defunct),
    VehicleLockOwnerSub,
    HasNonVehicleLocks,
}

impl Read {
    /// The Rust's name.
    #[must_use]
    pub fn name(&self) -> &'static str {
        match self {
            Self::Revision => "revision",
            Self::ActiveForScope(_) => "active_for_scope",
            Self::ActiveById(_) => "active_by_id",
            Self::DefunctById(_) => "defunct_by_id",
            Self::ActiveAt(_) => "active",
            Self::DefunctAt(_) => "defunct",
            Self::CoveredNarrowLocks(_) => "covered_narrow_locks",
            Self::CoveringFunctionalGroup { .. } => "covering_functional_group",
            Self::TesterPresentFor { .. } => "tester_present_for",
            Self::TesterPresentNeeded(_) => "tester_present_needed",
            Self::UncoveredDefunct { .. } => "uncovered_defunct",
            Self::CurrentHolder(_) => "current_holder",
            Self::VehicleLockOwnerSub => "vehicle_lock_owner_sub",
            Self::HasNonVehicleLocks => "has_non_vehicle_locks",
        }
    }
}

#[cfg(test)]
mod tests {
    use super::*;

    #[test]
    fn id_text_sorts_like_bytes_and_comes_back() {
        let ids = [0, 1, 0xff, 1 << 64, u128::MAX, 0xa0 << 120, 0x9f << 120].map(Id::from_number);
        for a in ids {
            assert_eq!(a.to_string().parse(), Ok(a));
            let [high, low] = a.words();
            assert_eq!(Id::from_words(high, low), a);
            for b in ids {
                assert_eq!(a.cmp(&b), a.to_string().cmp(&b.to_string()));
                assert_eq!(a.cmp(&b), a.words().cmp(&b.words()));
            }
        }
        assert_eq!(
            "00000000-0000-0000-0000-00000000000A".parse::<Id>(),
            Err(())
        );
    }

    #[test]
    fn coverage_words() {
        let [none, some, more] = [&[][..], &[5], &[5, 255]].map(Coverage::of);
        assert!(Coverage::Vehicle.overlaps(&none) && none.overlaps(&Coverage::Vehicle));
        assert!(
            Coverage::Vehicle.contains(&Coverage::Vehicle) && !more.contains(&Coverage::Vehicle)
        );
        assert!(!none.overlaps(&none) && none.contains(&none));
        assert!(more.contains(&some) && !some.contains(&more) && more.overlaps(&some));
    }
}
