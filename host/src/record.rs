// SPDX-License-Identifier: Apache-2.0
//! Operations, which the library writes as feed records; and an image's records in bytes, from
//! document 01's "Records": a length (u16, bytes after itself), a kind (u16), a body; all
//! little-endian.

use std::fmt;

use crate::{
    library::{self, Asked, RECORD_LIMIT},
    refusal::Refusal,
    types::{Active, Coverage, Defunct, EcuSet, Lock, LockId, Scope},
};

/// Bytes of a HEAD record.
pub const HEAD_BYTES: usize = 20;
/// Bytes of an ACTIVE record.
pub const ACTIVE_BYTES: usize = 91;
/// Bytes of a DEFUNCT record.
pub const DEFUNCT_BYTES: usize = 104;
/// Most ids that a record of kind 17 or 21 lists.
pub const LIST_LIMIT: usize = 64;

const ACTIVE: u16 = 2;
const DEFUNCT: u16 = 3;

/// An operation that goes through the feed.
#[derive(Clone, Debug, PartialEq, Eq)]
#[non_exhaustive]
pub enum Operation {
    /// Takes a lock.
    InsertActive {
        /// The lock to take.
        lock: Active,
    },
    /// Takes a vehicle lock over locks of the same subject.
    InsertVehicle {
        /// The vehicle lock.
        lock: Active,
        /// Locks that become its children; any order, repeats allowed.
        children: Vec<LockId>,
    },
    /// Extends a lock.
    Renew {
        /// Which lock.
        id: LockId,
        /// Its new expiry.
        expires: u64,
        /// The host's clock.
        now: u64,
        /// New metadata; none leaves it as it is.
        metadata: Option<u32>,
    },
    /// Gives a lock back, with all that belongs to it.
    Delete {
        /// Which lock.
        id: LockId,
    },
    /// Takes a lock away once its time is over.
    BeginExpiration {
        /// Which lock.
        id: LockId,
        /// The host's clock.
        now: u64,
    },
    /// Breaks locks and takes a new one in their place.
    CommitReplacement {
        /// The locks to break, each with all that belongs to it; any order, repeats allowed.
        roots: Vec<LockId>,
        /// The lock to take.
        lock: Active,
        /// Who breaks them: the host's number.
        broken_by: u32,
        /// When.
        broken_at: u64,
    },
    /// Drops a defunct lock.
    AcknowledgeDefunct {
        /// Which one.
        id: LockId,
    },
    /// Drops every defunct lock whose original expiry has come.
    ExpireDefunct {
        /// The host's clock.
        now: u64,
    },
}

/// An operation lists more than 64 ids, which no record holds.
#[derive(Clone, Copy, Debug, PartialEq, Eq)]
pub struct ListTooLong {
    /// How many it lists.
    pub ids: usize,
}

impl fmt::Display for ListTooLong {
    fn fmt(&self, f: &mut fmt::Formatter<'_>) -> fmt::Result {
        write!(f, "{} ids; a record holds at most {LIST_LIMIT}", self.ids)
    }
}

impl std::error::Error for ListTooLong {}

impl Operation {
    /// The record's kind.
    #[must_use]
    pub fn kind(&self) -> u16 {
        match self {
            Self::InsertActive { .. } => 16,
            Self::InsertVehicle { .. } => 17,
            Self::Renew { .. } => 18,
            Self::Delete { .. } => 19,
            Self::BeginExpiration { .. } => 20,
            Self::CommitReplacement { .. } => 21,
            Self::AcknowledgeDefunct { .. } => 22,
            Self::ExpireDefunct { .. } => 23,
        }
    }

    /// The ids that it lists.
    fn listed(&self) -> &[LockId] {
        match self {
            Self::InsertVehicle { children, .. } => children,
            Self::CommitReplacement { roots, .. } => roots,
            _ => &[],
        }
    }

    /// The operation as numbers, and the ids that it lists as two words each: what
    /// [`library::write_record`] and [`library::perform`] take.
    #[must_use]
    pub fn asked(&self) -> (Asked, Vec<u64>) {
        let kind = self.kind();
        let asked = match self {
            Self::InsertActive { lock } | Self::InsertVehicle { lock, .. } => bring(kind, lock),
            Self::Renew {
                id,
                expires,
                now,
                metadata,
            } => Asked {
                expires: *expires,
                now: *now,
                given: metadata.is_some().into(),
                metadata: metadata.unwrap_or_default(),
                ..name(kind, *id)
            },
            Self::Delete { id } | Self::AcknowledgeDefunct { id } => name(kind, *id),
            Self::BeginExpiration { id, now } => Asked {
                now: *now,
                ..name(kind, *id)
            },
            Self::CommitReplacement {
                lock,
                broken_by,
                broken_at,
                ..
            } => Asked {
                breaker: *broken_by,
                now: *broken_at,
                ..bring(kind, lock)
            },
            Self::ExpireDefunct { now } => Asked {
                kind,
                now: *now,
                ..Asked::default()
            },
        };
        let words = self.listed().iter().flat_map(|id| id.halves());
        (asked, words.collect())
    }

    /// The feed record of this operation with this sequence number, as the library writes it.
    ///
    /// # Panics
    ///
    /// As [`Replica::perform`](crate::Replica::perform).
    pub fn record(&self, sequence: u32) -> Result<Vec<u8>, ListTooLong> {
        let (asked, list) = self.asked();
        let mut record = vec![0; RECORD_LIMIT];
        let told = library::write_record(sequence, &asked, &list, &mut record);
        if let Some(refusal) = Refusal::from_told(&told) {
            return Err(self.unwritten(refusal));
        }
        record.truncate(told.values[0] as usize);
        Ok(record)
    }

    /// Why the library writes no record of it: of what can be said here, only for its list (29).
    pub(crate) fn unwritten(&self, refusal: Refusal) -> ListTooLong {
        assert!(
            refusal == Refusal::ListTooLong,
            "the library wrote no record: {refusal}"
        );
        ListTooLong {
            ids: self.listed().len(),
        }
    }
}

/// An operation on the lock with this id.
fn name(kind: u16, id: LockId) -> Asked {
    let [hi, lo] = id.halves();
    Asked {
        kind,
        hi,
        lo,
        ..Asked::default()
    }
}

/// An operation that brings a lock.
fn bring(kind: u16, active: &Active) -> Asked {
    let lock = &active.lock;
    let (scope, number) = lock.scope.parts();
    let (coverage, set) = lock.coverage.parts();
    let [w0, w1, w2, w3] = set.words();
    let [parenthi, parentlo] = active.parent.unwrap_or_default().halves();
    Asked {
        parenthi,
        parentlo,
        w0,
        w1,
        w2,
        w3,
        expires: active.expires,
        principal: lock.principal,
        metadata: lock.metadata,
        subject: lock.subject,
        scope,
        number,
        exclusive: lock.exclusive.into(),
        coverage,
        child: active.parent.is_some().into(),
        ..name(kind, lock.id)
    }
}

/// A record of an image being written, as an argument of reads and for the empty image; its length
/// is filled in at the end. The feed's are the library's to write.
struct Out(Vec<u8>);

impl Out {
    fn new(kind: u16) -> Self {
        let mut out = Self(vec![0, 0]);
        out.put(&kind.to_le_bytes());
        out
    }

    fn put(&mut self, bytes: &[u8]) {
        self.0.extend_from_slice(bytes);
    }

    fn lock(&mut self, lock: &Lock) {
        let (kind, number) = lock.scope.parts();
        let (coverage, set) = lock.coverage.parts();
        self.put(&lock.id.0);
        self.put(&[kind, number, lock.exclusive.into(), coverage]);
        self.put(&set.0);
        self.put(&lock.subject.to_le_bytes());
        self.put(&lock.principal.to_le_bytes());
        self.put(&lock.metadata.to_le_bytes());
    }

    fn active(&mut self, active: &Active) {
        self.lock(&active.lock);
        self.put(&active.expires.to_le_bytes());
        self.put(&[active.parent.is_some().into()]);
        self.put(&active.parent.unwrap_or_default().0);
    }

    fn done(mut self) -> Vec<u8> {
        // A DEFUNCT record is the longest.
        let length = (self.0.len() - 2) as u16;
        self.0[..2].copy_from_slice(&length.to_le_bytes());
        self.0
    }
}

impl Active {
    /// The lock as an ACTIVE record of 91 bytes.
    #[must_use]
    pub fn encode(&self) -> Vec<u8> {
        let mut out = Out::new(ACTIVE);
        out.active(self);
        out.done()
    }

    /// The lock of an ACTIVE record; bytes after it are ignored.
    pub fn decode(record: &[u8]) -> Result<Self, Refusal> {
        let mut fields = body(record, ACTIVE, ACTIVE_BYTES)?;
        fields.active().ok_or(Refusal::BadField { offset: 0 })
    }
}

impl Defunct {
    /// The lock as a DEFUNCT record of 104 bytes.
    #[must_use]
    pub fn encode(&self) -> Vec<u8> {
        let mut out = Out::new(DEFUNCT);
        out.lock(&self.lock);
        out.put(&self.expires.to_le_bytes());
        out.put(&self.broken_at.to_le_bytes());
        out.put(&self.broken_by.to_le_bytes());
        out.put(&self.replacement.0);
        out.put(&self.holder.to_le_bytes());
        out.done()
    }

    /// The lock of a DEFUNCT record; bytes after it are ignored.
    pub fn decode(record: &[u8]) -> Result<Self, Refusal> {
        let mut fields = body(record, DEFUNCT, DEFUNCT_BYTES)?;
        fields.defunct().ok_or(Refusal::BadField { offset: 0 })
    }
}

/// A record's body, checked in document 01's order: under four bytes, kind, length, bytes
/// missing.
fn body(record: &[u8], due: u16, bytes: usize) -> Result<Fields<'_>, Refusal> {
    let mut head = Fields(record);
    let (Some(length), Some(kind)) = (head.u16(), head.u16()) else {
        return Err(Refusal::Torn { offset: 0 });
    };
    if kind != due {
        return Err(Refusal::BadKind { offset: 0 });
    }
    if usize::from(length) + 2 != bytes {
        return Err(Refusal::BadField { offset: 0 });
    }
    match record.get(4..bytes) {
        Some(body) => Ok(Fields(body)),
        None => Err(Refusal::Torn { offset: 0 }),
    }
}

/// Takes fields off the front; none where a field is wrong.
struct Fields<'a>(&'a [u8]);

impl Fields<'_> {
    fn take<const N: usize>(&mut self) -> Option<[u8; N]> {
        let (field, rest) = self.0.split_first_chunk()?;
        self.0 = rest;
        Some(*field)
    }

    fn u16(&mut self) -> Option<u16> {
        self.take().map(u16::from_le_bytes)
    }

    fn u32(&mut self) -> Option<u32> {
        self.take().map(u32::from_le_bytes)
    }

    fn u64(&mut self) -> Option<u64> {
        self.take().map(u64::from_le_bytes)
    }

    fn id(&mut self) -> Option<LockId> {
        self.take().map(LockId)
    }

    fn flag(&mut self) -> Option<bool> {
        match self.take::<1>()? {
            [0] => Some(false),
            [1] => Some(true),
            _ => None,
        }
    }

    fn coverage(&mut self) -> Option<Coverage> {
        let [kind] = self.take()?;
        let set = EcuSet(self.take()?);
        match kind {
            0 => (set == EcuSet::default()).then_some(Coverage::Vehicle),
            1 => Some(Coverage::Set(set)),
            _ => None,
        }
    }

    fn lock(&mut self) -> Option<Lock> {
        let id = self.id()?;
        let [kind, number] = self.take()?;
        Some(Lock {
            id,
            scope: Scope::from_parts(kind, number)?,
            exclusive: self.flag()?,
            coverage: self.coverage()?,
            subject: self.u16()?,
            principal: self.u32()?,
            metadata: self.u32()?,
        })
    }

    fn active(&mut self) -> Option<Active> {
        let (lock, expires) = (self.lock()?, self.u64()?);
        let parent = match (self.flag()?, self.id()?) {
            (true, id) => Some(id),
            (false, id) if id == LockId::default() => None,
            _ => return None,
        };
        Some(Active {
            lock,
            expires,
            parent,
        })
    }

    fn defunct(&mut self) -> Option<Defunct> {
        Some(Defunct {
            lock: self.lock()?,
            expires: self.u64()?,
            broken_at: self.u64()?,
            broken_by: self.u32()?,
            replacement: self.id()?,
            holder: self.u16()?,
        })
    }
}

/// The fixed places of an image's HEAD.
pub(crate) struct Head {
    pub revision: u64,
    pub expected: u32,
    pub active: usize,
    pub defunct: usize,
}

/// HEAD of an accepted image, 20 bytes; none for fewer bytes.
pub(crate) fn head(image: &[u8]) -> Option<Head> {
    let mut fields = Fields(image.get(4..)?);
    Some(Head {
        revision: fields.u64()?,
        expected: fields.u32()?,
        active: fields.u16()?.into(),
        defunct: fields.u16()?.into(),
    })
}

/// The image of the empty state with this expected number.
pub(crate) fn empty_image(expected: u32) -> Vec<u8> {
    let mut out = Out::new(1);
    out.put(&0u64.to_le_bytes());
    out.put(&expected.to_le_bytes());
    out.put(&[0; 4]);
    out.done()
}
