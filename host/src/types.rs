// SPDX-License-Identifier: Apache-2.0
//! Locks as values. A part that doesn't apply (a vehicle's number, a set, a parent) has no place
//! here, so none can be wrong.

use std::{array, fmt, str::FromStr};

use crate::library::{BOARD_BYTES, ENTRY_BYTES};

/// A lock's id: 16 bytes, compared from the first.
#[derive(Clone, Copy, PartialEq, Eq, PartialOrd, Ord, Hash, Default)]
pub struct LockId(pub [u8; 16]);

impl LockId {
    /// The id that is this number, most significant byte first.
    #[must_use]
    pub const fn from_u128(number: u128) -> Self {
        Self(number.to_be_bytes())
    }

    /// The number that the bytes are.
    #[must_use]
    pub const fn as_u128(self) -> u128 {
        u128::from_be_bytes(self.0)
    }

    /// Two words, first half first, as answers carry an id.
    #[must_use]
    pub const fn halves(self) -> [u64; 2] {
        let number = self.as_u128();
        [(number >> 64) as u64, number as u64]
    }

    /// The id of two words, first half first.
    #[must_use]
    pub const fn from_halves(first: u64, second: u64) -> Self {
        Self::from_u128((first as u128) << 64 | second as u128)
    }
}

impl fmt::Display for LockId {
    /// Lowercase UUID text, which sorts like the bytes.
    fn fmt(&self, f: &mut fmt::Formatter<'_>) -> fmt::Result {
        for (i, byte) in self.0.iter().enumerate() {
            if matches!(i, 4 | 6 | 8 | 10) {
                f.write_str("-")?;
            }
            write!(f, "{byte:02x}")?;
        }
        Ok(())
    }
}

impl fmt::Debug for LockId {
    fn fmt(&self, f: &mut fmt::Formatter<'_>) -> fmt::Result {
        fmt::Display::fmt(self, f)
    }
}

/// The text isn't a UUID.
#[derive(Clone, Copy, Debug, PartialEq, Eq)]
pub struct BadUuid;

impl fmt::Display for BadUuid {
    fn fmt(&self, f: &mut fmt::Formatter<'_>) -> fmt::Result {
        f.write_str("not a UUID of 32 hexadecimal digits and four dashes")
    }
}

impl std::error::Error for BadUuid {}

impl FromStr for LockId {
    type Err = BadUuid;

    /// UUID text with its dashes in place, small or capital letters.
    fn from_str(text: &str) -> Result<Self, BadUuid> {
        let bytes = text.as_bytes();
        if bytes.len() != 36 || [8, 13, 18, 23].iter().any(|at| bytes[*at] != b'-') {
            return Err(BadUuid);
        }
        let mut number = 0;
        for (at, byte) in bytes.iter().enumerate() {
            if matches!(at, 8 | 13 | 18 | 23) {
                continue;
            }
            let digit = char::from(*byte).to_digit(16).ok_or(BadUuid)?;
            number = number << 4 | u128::from(digit);
        }
        Ok(Self::from_u128(number))
    }
}

/// What a lock is taken on.
#[derive(Clone, Copy, Debug, PartialEq, Eq, Hash)]
pub enum Scope {
    /// The vehicle.
    Vehicle,
    /// One ECU, by its number.
    Ecu(u8),
    /// A functional group, by its number.
    FunctionalGroup(u8),
}

impl Scope {
    /// Kind and number as records hold them.
    #[must_use]
    pub const fn parts(self) -> (u8, u8) {
        match self {
            Self::Vehicle => (0, 0),
            Self::Ecu(ecu) => (1, ecu),
            Self::FunctionalGroup(group) => (2, group),
        }
    }

    /// The scope of these parts; none for a kind over 2 and for a vehicle with a number.
    #[must_use]
    pub const fn from_parts(kind: u8, number: u8) -> Option<Self> {
        match (kind, number) {
            (0, 0) => Some(Self::Vehicle),
            (1, ecu) => Some(Self::Ecu(ecu)),
            (2, group) => Some(Self::FunctionalGroup(group)),
            _ => None,
        }
    }
}

/// A set of ECU numbers: ECU e is bit e mod 8 of byte e/8.
#[derive(Clone, Copy, PartialEq, Eq, Hash, Default)]
pub struct EcuSet(pub [u8; 32]);

impl EcuSet {
    /// Whether the ECU is in the set.
    #[must_use]
    pub fn contains(&self, ecu: u8) -> bool {
        self.0[usize::from(ecu / 8)] >> (ecu % 8) & 1 == 1
    }

    /// Puts an ECU in.
    pub fn insert(&mut self, ecu: u8) {
        self.0[usize::from(ecu / 8)] |= 1 << (ecu % 8);
    }

    /// Four words: ECU e is bit e mod 64 of word e/64.
    #[must_use]
    pub fn words(&self) -> [u64; 4] {
        array::from_fn(|word| {
            let mut bytes = [0; 8];
            bytes.copy_from_slice(&self.0[8 * word..][..8]);
            u64::from_le_bytes(bytes)
        })
    }

    /// The numbers, ascending.
    pub fn iter(&self) -> impl Iterator<Item = u8> + '_ {
        (0..=255).filter(|ecu| self.contains(*ecu))
    }
}

impl FromIterator<u8> for EcuSet {
    fn from_iter<I: IntoIterator<Item = u8>>(ecus: I) -> Self {
        let mut set = Self::default();
        for ecu in ecus {
            set.insert(ecu);
        }
        set
    }
}

impl fmt::Debug for EcuSet {
    fn fmt(&self, f: &mut fmt::Formatter<'_>) -> fmt::Result {
        f.debug_set().entries(self.iter()).finish()
    }
}

/// Which ECUs a lock covers.
#[derive(Clone, Copy, Debug, PartialEq, Eq, Hash)]
pub enum Coverage {
    /// The whole vehicle; it overlaps and contains everything.
    Vehicle,
    /// These ECUs, none perhaps.
    Set(EcuSet),
}

impl Coverage {
    /// The set of these ECUs.
    #[must_use]
    pub fn of(ecus: &[u8]) -> Self {
        Self::Set(ecus.iter().copied().collect())
    }

    /// Kind and set as records hold them.
    #[must_use]
    pub fn parts(self) -> (u8, EcuSet) {
        match self {
            Self::Vehicle => (0, EcuSet::default()),
            Self::Set(set) => (1, set),
        }
    }

    /// Where two coverages overlap, if they do: the whole vehicle with everything, the empty set
    /// too; two sets where they share an ECU.
    #[must_use]
    pub fn overlaps(&self, other: &Self) -> Overlap {
        match (self, other) {
            (Self::Vehicle, Self::Vehicle) => Overlap::Meets(None),
            (Self::Vehicle, Self::Set(set)) | (Self::Set(set), Self::Vehicle) => {
                Overlap::Meets(set.iter().next())
            }
            (Self::Set(left), Self::Set(right)) => {
                match left.iter().find(|ecu| right.contains(*ecu)) {
                    None => Overlap::Apart,
                    lowest => Overlap::Meets(lowest),
                }
            }
        }
    }
}

/// Where two coverages overlap ([`Coverage::overlaps`]).
#[derive(Clone, Copy, Debug, PartialEq, Eq, Hash)]
pub enum Overlap {
    /// Nowhere.
    Apart,
    /// At this ECU, the lowest that both cover; of the whole vehicle and a set, the set's lowest.
    /// None where both are the whole vehicle, or one is and the other is the empty set: they
    /// overlap, and there is no ECU to name.
    Meets(Option<u8>),
}

/// What active and defunct locks share.
#[derive(Clone, Copy, Debug, PartialEq, Eq, Hash)]
pub struct Lock {
    /// Its id.
    pub id: LockId,
    /// What it is taken on.
    pub scope: Scope,
    /// Whether it was asked for exclusively.
    pub exclusive: bool,
    /// The ECUs it covers.
    pub coverage: Coverage,
    /// Whose it is, by the subject's number.
    pub subject: u16,
    /// The host's number for the principal; opaque here.
    pub principal: u32,
    /// The host's number for the metadata; opaque here.
    pub metadata: u32,
}

/// A lock that is held.
#[derive(Clone, Copy, Debug, PartialEq, Eq, Hash)]
pub struct Active {
    /// The lock.
    pub lock: Lock,
    /// When it expires, in milliseconds since 1970.
    pub expires: u64,
    /// The vehicle lock it belongs to.
    pub parent: Option<LockId>,
}

/// A lock that was replaced, kept until its owner has seen it or it would have expired.
#[derive(Clone, Copy, Debug, PartialEq, Eq, Hash)]
pub struct Defunct {
    /// The lock.
    pub lock: Lock,
    /// When it would have expired.
    pub expires: u64,
    /// When it was replaced.
    pub broken_at: u64,
    /// Who replaced it: the host's number, opaque here.
    pub broken_by: u32,
    /// The id of the lock that took its place.
    pub replacement: LockId,
    /// The subject of the lock that took its place.
    pub holder: u16,
}

/// What a board of control units tells of one ECU.
#[derive(Clone, Copy, Debug, PartialEq, Eq, Hash)]
pub struct OnEcu {
    /// How many locks that are held cover it, vehicle locks too.
    pub locks: u8,
    /// The lowest id among them.
    pub lowest: Option<LockId>,
}

impl OnEcu {
    /// The ECU's entry in a board: 17 bytes, the count and the id.
    #[must_use]
    pub fn in_board(board: &[u8; BOARD_BYTES], ecu: u8) -> Self {
        let at = ENTRY_BYTES * usize::from(ecu);
        let (locks, mut id) = (board[at], [0; 16]);
        id.copy_from_slice(&board[at + 1..at + ENTRY_BYTES]);
        Self {
            locks,
            // An id of zeros is an id: the count tells.
            lowest: (locks > 0).then_some(LockId(id)),
        }
    }
}

/// Which units a tester-present signal keeps awake.
#[derive(Clone, Copy, Debug, PartialEq, Eq, Hash)]
pub enum TesterPresent {
    /// One ECU.
    Ecu(u8),
    /// A functional group.
    Functional(u8),
}

/// Who stands at the end of a defunct lock's chain of replacements.
#[derive(Clone, Copy, Debug, PartialEq, Eq, Hash)]
pub struct Holder {
    /// The subject.
    pub subject: u16,
    /// How many defunct locks were passed after the given one, at most 128.
    pub links: u8,
}
