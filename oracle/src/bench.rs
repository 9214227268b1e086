// SPDX-License-Identifier: Apache-2.0
//! States and operations for benchmarks, so that the original and whatever is set beside it are
//! timed on the same work.

use crate::model::{
    Active, Coverage, Defunct, Id, IdList, Lock, Operation, Read, Scope, State, TesterPresent,
};

/// Active and defunct locks of the states timed.
pub const SIZES: [(usize, usize); 4] = [(1, 0), (16, 0), (64, 0), (64, 128)];

/// What is timed in one cell of a table.
pub struct Cell {
    pub state: State,
    pub operation: Operation,
}

/// Each operation's name and its cells, one for each of [`SIZES`]. An insertion is timed at 63
/// active locks for 64 and a replacement at 127 defunct ones for 128: where the tables are full
/// the library refuses them (13), and the original, which has no limits, does them.
#[must_use]
pub fn rows() -> Vec<(&'static str, Vec<Cell>)> {
    (0..operations(1, 0).len())
        .map(|row| {
            let cells = SIZES.iter().map(|size| cell(row, *size)).collect();
            (operations(1, 0)[row].name(), cells)
        })
        .collect()
}

fn cell(row: usize, (active, defunct): (usize, usize)) -> Cell {
    let (active, defunct) = match operations(1, 0)[row] {
        Operation::InsertActive { .. } | Operation::InsertVehicle { .. } => {
            (active.min(63), defunct)
        }
        Operation::CommitReplacement { .. } => (active, defunct.min(127)),
        _ => (active, defunct),
    };
    Cell {
        state: state(active, defunct),
        operation: operations(active, defunct).swap_remove(row),
    }
}

/// Four subjects hold one ECU each in turn; half of the defunct locks point at active ones, half
/// at the next defunct one. Everything expires at 1000.
#[must_use]
pub fn state(active: usize, defunct: usize) -> State {
    State {
        revision: 7,
        active: (0..active).map(active_lock).collect(),
        defunct: (0..defunct)
            .map(|place| defunct_lock(place, active, defunct))
            .collect(),
    }
}

fn lock(id: Id, ecu: u8, subject: u16) -> Lock {
    Lock {
        id,
        scope: Scope::Ecu(ecu),
        exclusive: false,
        coverage: Coverage::of(&[ecu]),
        subject,
        principal: 1,
        metadata: 2,
    }
}

/// Spread over the id space, as random ids are, but ascending by place.
fn active_id(place: usize) -> Id {
    Id::from_words((place as u64 + 1) << 56, 1)
}

fn defunct_id(place: usize) -> Id {
    Id::from_words((place as u64 + 1) << 56, 2)
}

fn new_id() -> Id {
    Id::from_words(1 << 55, 3)
}

fn active_lock(place: usize) -> Active {
    Active {
        lock: lock(active_id(place), place as u8, place as u16 % 4),
        expires: 1000,
        parent: None,
    }
}

fn defunct_lock(place: usize, active: usize, defunct: usize) -> Defunct {
    let next = place + 1;
    let onward = place.is_multiple_of(2) && next < defunct;
    let target = if onward {
        defunct_id(next)
    } else {
        active_id(place % active)
    };
    Defunct {
        lock: lock(defunct_id(place), 100 + place as u8, 4 + place as u16 % 4),
        expires: 1000,
        broken_at: 500,
        broken_by: 3,
        target,
        holder: 5,
    }
}

/// One call of each operation that goes through on [`state`] (`false` or an empty list where
/// there is nothing defunct). Where the tables are full, insertion and replacement end in 13.
#[must_use]
pub fn operations(active: usize, defunct: usize) -> Vec<Operation> {
    let (middle, entry) = (active / 2, defunct_lock_at(defunct / 2));
    let newcomer = |scope, coverage| Active {
        lock: Lock {
            scope,
            coverage,
            ..lock(new_id(), 99, 50)
        },
        expires: 2000,
        parent: None,
    };
    let own: Vec<Id> = (0..active).step_by(4).map(active_id).collect();
    let mut vehicle = newcomer(Scope::Vehicle, Coverage::Vehicle);
    vehicle.lock.subject = 0;
    let same = active_lock(middle).lock;
    vec![
        Operation::InsertActive {
            lock: newcomer(Scope::Ecu(99), Coverage::of(&[99])),
        },
        Operation::InsertVehicle {
            lock: vehicle,
            children: IdList::of(&own),
        },
        Operation::Renew {
            id: active_id(middle),
            expires: 1001,
            now: 999,
            metadata: Some(9),
        },
        Operation::Delete {
            id: active_id(middle),
        },
        Operation::BeginExpiration {
            id: active_id(middle),
            now: 1000,
        },
        Operation::CommitReplacement {
            roots: IdList::of(&[active_id(middle)]),
            lock: newcomer(same.scope, same.coverage),
            broken_by: 6,
            broken_at: 600,
        },
        Operation::AcknowledgeDefunct { id: entry.id },
        Operation::ExpireDefunct { now: 1000 },
        Operation::DeleteDefunct {
            id: entry.id,
            scope: entry.scope,
            subject: entry.subject,
        },
    ]
}

fn defunct_lock_at(place: usize) -> Lock {
    defunct_lock(place, 1, place + 1).lock
}

/// The reads that search, on [`state`].
#[must_use]
pub fn reads(active: usize, defunct: usize) -> Vec<Read> {
    let middle = active_lock(active / 2);
    let mut reads = vec![
        Read::ActiveForScope(middle.lock.scope),
        Read::ActiveById(middle.lock.id),
        Read::DefunctById(defunct_id(defunct / 2)),
        Read::CoveringFunctionalGroup { subject: 0, ecu: 5 },
        Read::TesterPresentFor {
            subject: 0,
            scope: Scope::Ecu(5),
        },
        Read::TesterPresentNeeded(TesterPresent::Ecu(255)),
        Read::UncoveredDefunct {
            subject: 60,
            scope: Scope::Ecu(99),
            coverage: Coverage::of(&[99]),
            now: 0,
        },
    ];
    if defunct > 0 {
        reads.push(Read::CurrentHolder(defunct_lock(0, active, defunct)));
    }
    reads
}
