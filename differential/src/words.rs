// SPDX-License-Identifier: Apache-2.0
//! What the judge says, in the words of the crate.

use cablegorse::{EcuSet, LockId};
use oracle::model::{Active, Coverage, Id, IdList, Operation, Scope};

#[must_use]
pub fn scope(scope: Scope) -> cablegorse::Scope {
    match scope {
        Scope::Vehicle => cablegorse::Scope::Vehicle,
        Scope::Ecu(ecu) => cablegorse::Scope::Ecu(ecu),
        Scope::Group(group) => cablegorse::Scope::FunctionalGroup(group),
    }
}

#[must_use]
pub fn coverage(coverage: &Coverage) -> cablegorse::Coverage {
    match coverage {
        Coverage::Vehicle => cablegorse::Coverage::Vehicle,
        Coverage::Set(ecus) => cablegorse::Coverage::Set(ecus.iter().collect::<EcuSet>()),
    }
}

fn id(id: Id) -> LockId {
    LockId(id.0)
}

fn active(active: &Active) -> cablegorse::Active {
    let lock = &active.lock;
    cablegorse::Active {
        lock: cablegorse::Lock {
            id: id(lock.id),
            scope: scope(lock.scope),
            exclusive: lock.exclusive,
            coverage: coverage(&lock.coverage),
            subject: lock.subject,
            principal: lock.principal,
            metadata: lock.metadata,
        },
        expires: active.expires,
        parent: active.parent.map(id),
    }
}

fn ids(list: &IdList) -> Option<Vec<LockId>> {
    Some(list.ids()?.into_iter().map(id).collect())
}

/// An operation that goes through the feed; none for another, and for half an id.
#[must_use]
pub fn operation(operation: &Operation) -> Option<cablegorse::Operation> {
    use cablegorse::Operation as Word;
    Some(match operation {
        Operation::InsertActive { lock } => Word::InsertActive { lock: active(lock) },
        Operation::InsertVehicle { lock, children } => Word::InsertVehicle {
            lock: active(lock),
            children: ids(children)?,
        },
        Operation::Renew {
            id: lock,
            expires,
            now,
            metadata,
        } => Word::Renew {
            id: id(*lock),
            expires: *expires,
            now: *now,
            metadata: *metadata,
        },
        Operation::Delete { id: lock } => Word::Delete { id: id(*lock) },
        Operation::BeginExpiration { id: lock, now } => Word::BeginExpiration {
            id: id(*lock),
            now: *now,
        },
        Operation::CommitReplacement {
            roots,
            lock,
            broken_by,
            broken_at,
        } => Word::CommitReplacement {
            roots: ids(roots)?,
            lock: active(lock),
            broken_by: *broken_by,
            broken_at: *broken_at,
        },
        Operation::AcknowledgeDefunct { id: lock } => Word::AcknowledgeDefunct { id: id(*lock) },
        Operation::ExpireDefunct { now } => Word::ExpireDefunct { now: *now },
        Operation::DeleteDefunct { .. } => return None,
    })
}
