// SPDX-License-Identifier: Apache-2.0
//! What testers ask of a primary, by a seed: a few subjects, ECUs and groups, so that they meet.

use cablegorse::{Active, Coverage, EcuSet, Lock, LockId, Operation, Replica, Scope};

use crate::rng::Rng;

const SUBJECTS: usize = 5;
const ECUS: usize = 12;
const GROUPS: usize = 4;

/// The next operation a primary is asked for in this state. `now` is the clock.
pub fn operation(rng: &mut Rng, state: &Replica, now: u64) -> Operation {
    let active: Vec<LockId> = state.actives().map(|a| a.lock.id).collect();
    let defunct: Vec<LockId> = state.defuncts().map(|d| d.lock.id).collect();
    let held = |rng: &mut Rng| rng.pick(&active).unwrap_or_else(|| new_id(rng));
    match rng.below(100) {
        0..=33 => Operation::InsertActive {
            lock: lock(rng, state, now, None),
        },
        34..=40 => {
            let mut vehicle = lock(rng, state, now, Some(Scope::Vehicle));
            vehicle.parent = None;
            let own = |a: &Active| a.lock.subject == vehicle.lock.subject && a.parent.is_none();
            let children = state.actives().filter(own).map(|a| a.lock.id).collect();
            Operation::InsertVehicle {
                lock: vehicle,
                children,
            }
        }
        41..=52 => Operation::Renew {
            id: held(rng),
            expires: now + 20 + rng.below(200) as u64,
            now,
            metadata: rng.percent(30).then(|| rng.below(9) as u32),
        },
        53..=62 => Operation::Delete { id: held(rng) },
        63..=70 => Operation::BeginExpiration { id: held(rng), now },
        71..=84 => {
            let mut roots: Vec<LockId> = Vec::new();
            for _ in 0..1 + rng.below(2) {
                roots.extend(rng.pick(&active));
            }
            let scope = roots
                .first()
                .and_then(|id| state.actives().find(|a| a.lock.id == *id))
                .map(|a| a.lock.scope);
            Operation::CommitReplacement {
                roots,
                lock: lock(rng, state, now, scope),
                broken_by: rng.below(SUBJECTS) as u32,
                broken_at: now,
            }
        }
        85..=93 => Operation::AcknowledgeDefunct {
            id: rng.pick(&defunct).unwrap_or_else(|| new_id(rng)),
        },
        _ => Operation::ExpireDefunct { now },
    }
}

fn new_id(rng: &mut Rng) -> LockId {
    LockId::from_halves(rng.word(), rng.word())
}

fn lock(rng: &mut Rng, state: &Replica, now: u64, scope: Option<Scope>) -> Active {
    let ecu = rng.below(ECUS) as u8;
    let scope = scope.unwrap_or_else(|| match rng.below(4) {
        0 => Scope::FunctionalGroup(rng.below(GROUPS) as u8),
        _ => Scope::Ecu(ecu),
    });
    let coverage = match scope {
        Scope::Vehicle if rng.percent(80) => Coverage::Vehicle,
        Scope::Ecu(ecu) => Coverage::of(&[ecu]),
        _ => Coverage::Set(
            (0..1 + rng.below(3))
                .map(|_| rng.below(ECUS) as u8)
                .collect::<EcuSet>(),
        ),
    };
    let subject = rng.below(SUBJECTS) as u16;
    // Sometimes under the vehicle lock.
    let vehicle = state
        .actives()
        .find(|a| a.lock.scope == Scope::Vehicle && a.lock.subject == subject);
    let parent = vehicle.filter(|_| scope != Scope::Vehicle && rng.percent(50));
    Active {
        lock: Lock {
            id: new_id(rng),
            scope,
            exclusive: rng.percent(50),
            coverage,
            subject,
            principal: u32::from(subject),
            metadata: rng.below(9) as u32,
        },
        expires: now + 5 + rng.below(100) as u64,
        parent: parent.map(|a| a.lock.id),
    }
}
