// SPDX-License-Identifier: Apache-2.0
//! Every sound state and every operation over a universe so small that all of it can be tried:
//! three ids and a fourth that is nowhere, the vehicle, one ECU and one group, two subjects, the
//! coverages whole, empty and {0}, one expiry, the first and the last revision.

use crate::{
    model::{Active, Coverage, Defunct, Id, IdList, Lock, Operation, Scope, State},
    rules::broken_rule,
};

const SCOPES: [Scope; 3] = [Scope::Vehicle, Scope::Ecu(0), Scope::Group(0)];
const SUBJECTS: [u16; 2] = [1, 2];
const REVISIONS: [u64; 2] = [0, u64::MAX];
const EXPIRY: u64 = 1;

fn coverages() -> [Coverage; 3] {
    [Coverage::Vehicle, Coverage::of(&[]), Coverage::of(&[0])]
}

fn id(number: usize) -> Id {
    Id::from_number(number as u128)
}

fn locks(id: Id, scopes: &[Scope]) -> Vec<Lock> {
    let mut all = Vec::new();
    for scope in scopes {
        for coverage in coverages() {
            for subject in SUBJECTS {
                all.push(Lock {
                    id,
                    scope: *scope,
                    exclusive: false,
                    coverage,
                    subject,
                    principal: 0,
                    metadata: 0,
                });
            }
        }
    }
    all
}

/// What may stand at an id: nothing, an active lock or a defunct one.
#[derive(Clone, Copy)]
enum Place {
    Free,
    Active(Active),
    Defunct(Defunct),
}

/// Defunct locks vary less, or there would be too many: one scope and two coverages.
fn places(number: usize) -> Vec<Place> {
    let mut all = vec![Place::Free];
    for lock in locks(id(number), &SCOPES) {
        let parents = (1..=3)
            .filter(|parent| *parent != number)
            .map(|parent| Some(id(parent)));
        for parent in parents.chain([None]) {
            all.push(Place::Active(Active {
                lock,
                expires: EXPIRY,
                parent,
            }));
        }
    }
    for lock in locks(id(number), &SCOPES[1..2]) {
        if lock.coverage == Coverage::of(&[]) {
            continue;
        }
        for target in (1..=4).filter(|target| *target != number).map(id) {
            let holder = 2;
            let expires = EXPIRY;
            all.push(Place::Defunct(Defunct {
                lock,
                expires,
                broken_at: 0,
                broken_by: 0,
                target,
                holder,
            }));
        }
    }
    all
}

/// Every sound state of the universe.
#[must_use]
pub fn states() -> Vec<State> {
    let (first, second, third) = (places(1), places(2), places(3));
    let mut all = Vec::new();
    for a in &first {
        for b in &second {
            for c in &third {
                all.extend(state(&[*a, *b, *c]));
            }
        }
    }
    all
}

/// The state with these places, at each revision, if it is sound.
fn state(places: &[Place]) -> Vec<State> {
    let mut state = State::default();
    for place in places {
        match place {
            Place::Free => {}
            Place::Active(active) => state.active.push(*active),
            Place::Defunct(defunct) => state.defunct.push(*defunct),
        }
    }
    if broken_rule(&state).is_some() {
        return Vec::new();
    }
    REVISIONS
        .map(|revision| State {
            revision,
            ..state.clone()
        })
        .to_vec()
}

/// Every operation of the universe; the same for all states.
#[must_use]
pub fn operations() -> Vec<Operation> {
    let mut all = Vec::new();
    for number in 1..=4 {
        let id = id(number);
        all.push(Operation::Delete { id });
        all.push(Operation::AcknowledgeDefunct { id });
        for now in [EXPIRY - 1, EXPIRY] {
            all.push(Operation::BeginExpiration { id, now });
            for expires in [EXPIRY, EXPIRY + 1] {
                all.push(Operation::Renew {
                    id,
                    expires,
                    now,
                    metadata: None,
                });
            }
        }
        for scope in SCOPES {
            for subject in SUBJECTS {
                all.push(Operation::DeleteDefunct { id, scope, subject });
            }
        }
        insertions(&mut all, number);
    }
    for now in [EXPIRY - 1, EXPIRY] {
        all.push(Operation::ExpireDefunct { now });
    }
    all
}

fn insertions(all: &mut Vec<Operation>, number: usize) {
    for lock in locks(id(number), &SCOPES) {
        for parent in (1..=4).map(|parent| Some(id(parent))).chain([None]) {
            let lock = Active {
                lock,
                expires: EXPIRY,
                parent,
            };
            all.push(Operation::InsertActive { lock });
            for list in lists() {
                if parent.is_none() {
                    all.push(Operation::InsertVehicle {
                        lock,
                        children: list.clone(),
                    });
                }
                // A used id is refused before anything else that the roots don't decide.
                if number == 4 || parent.is_none() {
                    all.push(Operation::CommitReplacement {
                        roots: list,
                        lock,
                        broken_by: 0,
                        broken_at: 0,
                    });
                }
            }
        }
    }
}

/// Every set of the three ids.
fn lists() -> Vec<IdList> {
    (0..8)
        .map(|set| {
            let ids: Vec<Id> = (1..=3)
                .filter(|n| set >> (n - 1) & 1 == 1)
                .map(id)
                .collect();
            IdList::of(&ids)
        })
        .collect()
}
