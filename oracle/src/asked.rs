// SPDX-License-Identifier: Apache-2.0
//! An operation as the numbers that a host hands in to have it written (02, C-12), and back.

use crate::model::{Active, Coverage, EcuSet, Id, IdList, Lock, Operation, Scope};

/// The numbers. Those that the kind doesn't take, and parts that don't apply, may be anything.
#[derive(Clone, Copy, Debug, PartialEq, Eq, Default)]
pub struct Asked {
    pub id: [u64; 2],
    pub parent: [u64; 2],
    pub set: [u64; 4],
    pub expires: u64,
    /// Of a replacement: when the locks were broken.
    pub now: u64,
    pub principal: u32,
    pub metadata: u32,
    pub breaker: u32,
    pub kind: u16,
    pub subject: u16,
    pub scope: u8,
    pub number: u8,
    pub exclusive: u8,
    pub coverage: u8,
    pub child: u8,
    pub given: u8,
}

/// No feed has this kind.
const BAD_KIND: u8 = 18;
/// A number that its field can't have.
const BAD_FIELD: u8 = 19;

fn flag(number: u8) -> Result<bool, u8> {
    match number {
        0 => Ok(false),
        1 => Ok(true),
        _ => Err(BAD_FIELD),
    }
}

impl Asked {
    /// The numbers of an operation and the words of its list; none for `delete_defunct`, which no
    /// feed carries.
    #[must_use]
    pub fn of(operation: &Operation) -> Option<(Self, Vec<u64>)> {
        let mut asked = Self {
            kind: operation.kind()?,
            ..Self::default()
        };
        let list = asked.take(operation);
        Some((asked, list))
    }

    fn take(&mut self, operation: &Operation) -> Vec<u64> {
        match operation {
            Operation::InsertActive { lock } => self.take_lock(lock),
            Operation::InsertVehicle { lock, children } => {
                self.take_lock(lock);
                return children.0.clone();
            }
            Operation::Renew {
                id,
                expires,
                now,
                metadata,
            } => {
                (self.id, self.expires, self.now) = (id.words(), *expires, *now);
                self.given = metadata.is_some().into();
                self.metadata = metadata.unwrap_or_default();
            }
            Operation::Delete { id } | Operation::AcknowledgeDefunct { id } => self.id = id.words(),
            Operation::BeginExpiration { id, now } => (self.id, self.now) = (id.words(), *now),
            Operation::CommitReplacement {
                roots,
                lock,
                broken_by,
                broken_at,
            } => {
                self.take_lock(lock);
                (self.breaker, self.now) = (*broken_by, *broken_at);
                return roots.0.clone();
            }
            Operation::ExpireDefunct { now } => self.now = *now,
            Operation::DeleteDefunct { .. } => {}
        }
        Vec::new()
    }

    fn take_lock(&mut self, active: &Active) {
        let lock = &active.lock;
        self.id = lock.id.words();
        (self.scope, self.number) = match lock.scope {
            Scope::Vehicle => (0, 0),
            Scope::Ecu(ecu) => (1, ecu),
            Scope::Group(group) => (2, group),
        };
        self.exclusive = lock.exclusive.into();
        if let Coverage::Set(EcuSet(words)) = lock.coverage {
            (self.coverage, self.set) = (1, words);
        }
        (self.subject, self.principal, self.metadata) =
            (lock.subject, lock.principal, lock.metadata);
        self.expires = active.expires;
        self.child = active.parent.is_some().into();
        self.parent = active.parent.unwrap_or_default().words();
    }

    /// The operation that the numbers mean, with this list where it takes one; 18 or 19 where
    /// they mean none.
    pub fn operation(&self, list: &[u64]) -> Result<Operation, u8> {
        let id = Id::from_words(self.id[0], self.id[1]);
        let list = || IdList(list.to_vec());
        let (now, expires) = (self.now, self.expires);
        Ok(match self.kind {
            16 => Operation::InsertActive { lock: self.lock()? },
            17 => Operation::InsertVehicle {
                lock: self.lock()?,
                children: list(),
            },
            18 => Operation::Renew {
                id,
                expires,
                now,
                metadata: flag(self.given)?.then_some(self.metadata),
            },
            19 => Operation::Delete { id },
            20 => Operation::BeginExpiration { id, now },
            21 => Operation::CommitReplacement {
                roots: list(),
                lock: self.lock()?,
                broken_by: self.breaker,
                broken_at: now,
            },
            22 => Operation::AcknowledgeDefunct { id },
            23 => Operation::ExpireDefunct { now },
            _ => return Err(BAD_KIND),
        })
    }

    fn lock(&self) -> Result<Active, u8> {
        let scope = match self.scope {
            0 => Scope::Vehicle,
            1 => Scope::Ecu(self.number),
            2 => Scope::Group(self.number),
            _ => return Err(BAD_FIELD),
        };
        let coverage = if flag(self.coverage)? {
            Coverage::Set(EcuSet(self.set))
        } else {
            Coverage::Vehicle
        };
        let parent = Id::from_words(self.parent[0], self.parent[1]);
        Ok(Active {
            lock: Lock {
                id: Id::from_words(self.id[0], self.id[1]),
                scope,
                exclusive: flag(self.exclusive)?,
                coverage,
                subject: self.subject,
                principal: self.principal,
                metadata: self.metadata,
            },
            expires: self.expires,
            parent: flag(self.child)?.then_some(parent),
        })
    }
}
