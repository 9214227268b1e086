// SPDX-License-Identifier: Apache-2.0
//! Document 01's bench sheet, every row, run on the original. What a row leaves out is as
//! decided: exclusive, principal and metadata 0, vehicle coverage whole, renewal to 200.

use oracle::{
    answer::{Outcome, Told},
    judge::Judge,
    model::{Active, Coverage, Id, IdList, Lock, Operation, Scope, State},
    paper,
};

fn id(number: u128) -> Id {
    Id::from_number(number)
}

fn ids(locks: &[Active]) -> Vec<Id> {
    locks.iter().map(|a| a.lock.id).collect()
}

fn lock(number: u128, scope: Scope, coverage: Coverage, subject: u16) -> Active {
    Lock::plain(id(number), scope, coverage, subject).until(100)
}

/// The judge's answer, which the restated 01 gives too.
fn apply(state: &State, operation: &Operation) -> Outcome {
    let outcome = Judge::new(state).apply(operation);
    assert_eq!(outcome, paper::apply(state, operation));
    outcome
}

fn insert(state: &State, lock: Active) -> Outcome {
    apply(state, &Operation::InsertActive { lock })
}

fn done(outcome: Outcome) -> State {
    assert_eq!(outcome.told, Told::Done);
    outcome.state
}

fn a() -> State {
    done(insert(
        &State::default(),
        lock(1, Scope::Ecu(5), Coverage::of(&[5]), 1),
    ))
}

fn replace(state: &State, roots: &[u128], lock: Active) -> Outcome {
    let roots: Vec<Id> = roots.iter().copied().map(id).collect();
    let roots = IdList::of(&roots);
    apply(
        state,
        &Operation::CommitReplacement {
            roots,
            lock,
            broken_by: 0,
            broken_at: 0,
        },
    )
}

fn renew(state: &State, now: u64, expires: u64) -> Outcome {
    apply(
        state,
        &Operation::Renew {
            id: id(1),
            expires,
            now,
            metadata: None,
        },
    )
}

#[test]
fn insertion() {
    assert_eq!(a().revision, 1);
    assert_eq!(ids(&a().active), [id(1)]);
}

#[test]
fn conflict() {
    let outcome = insert(&a(), lock(2, Scope::Group(3), Coverage::of(&[5, 6]), 2));
    assert_eq!(outcome.told, Told::CoverageConflict(id(1)));
    assert_eq!(outcome.state, a());
    let state = done(insert(
        &a(),
        lock(2, Scope::Group(3), Coverage::of(&[6]), 2),
    ));
    assert_eq!((state.revision, state.active.len()), (2, 2));
}

#[test]
fn vehicle_has_no_conflict_test() {
    let vehicle = lock(2, Scope::Vehicle, Coverage::Vehicle, 2);
    assert_eq!(done(insert(&a(), vehicle)).active.len(), 2);
    let operation = Operation::InsertVehicle {
        lock: vehicle,
        children: IdList::default(),
    };
    assert_eq!(done(apply(&a(), &operation)).active.len(), 2);
}

#[test]
fn renewal() {
    assert_eq!(renew(&a(), 100, 200).told, Told::LockExpired);
    assert_eq!(renew(&a(), 99, 100).told, Told::RenewalNotExtension);
    assert_eq!(done(renew(&a(), 99, 101)).active[0].expires, 101);
}

#[test]
fn expiration() {
    let early = apply(&a(), &Operation::BeginExpiration { id: id(1), now: 99 });
    assert_eq!((early.told.clone(), early.state), (Told::NotDue(100), a()));
    let due = apply(
        &a(),
        &Operation::BeginExpiration {
            id: id(1),
            now: 100,
        },
    );
    assert_eq!(due.removed, a().active);
    assert_eq!(
        done(due),
        State {
            revision: 2,
            ..State::default()
        }
    );
}

#[test]
fn replacement_by_the_same_subject() {
    let outcome = replace(&a(), &[1], lock(2, Scope::Ecu(5), Coverage::of(&[5]), 1));
    assert_eq!(outcome.removed, a().active);
    let state = done(outcome);
    assert_eq!((state.active.len(), state.defunct.len()), (1, 0));
}

#[test]
fn replacement_by_another_subject() {
    let outcome = replace(&a(), &[1], lock(2, Scope::Ecu(5), Coverage::of(&[5]), 2));
    assert_eq!(outcome.removed, a().active);
    let state = done(outcome);
    assert_eq!(state.defunct.len(), 1);
    let entry = state.defunct[0];
    assert_eq!(
        (entry.lock.id, entry.target, entry.holder),
        (id(1), id(2), 2)
    );
}

/// ECU 5 as id 3, a group over 5 and 6, and a vehicle lock with only the group as its child.
fn family(vehicle: u128, group: u128) -> State {
    let state = done(insert(
        &State::default(),
        lock(3, Scope::Ecu(5), Coverage::of(&[5]), 1),
    ));
    let state = done(insert(
        &state,
        lock(group, Scope::Group(3), Coverage::of(&[5, 6]), 1),
    ));
    let operation = Operation::InsertVehicle {
        lock: lock(vehicle, Scope::Vehicle, Coverage::Vehicle, 1),
        children: IdList::of(&[id(group)]),
    };
    done(apply(&state, &operation))
}

#[test]
fn the_expanded_set_is_not_what_is_removed() {
    let new = lock(4, Scope::Ecu(5), Coverage::of(&[5]), 1);
    // The vehicle goes first and takes the group along, so nobody takes ECU 5.
    let outcome = replace(&family(1, 2), &[1, 2], new);
    assert_eq!(outcome.told, Told::DuplicateScope);
    assert_eq!(outcome.state, family(1, 2));
    // The group goes first and takes ECU 5 along.
    let outcome = replace(&family(2, 1), &[2, 1], new);
    assert_eq!(ids(&outcome.removed), [id(3), id(1), id(2)]);
    let state = done(outcome);
    assert_eq!(
        state.defunct.iter().map(|d| d.lock.id).collect::<Vec<_>>(),
        [id(1), id(2)]
    );
}

#[test]
fn an_empty_set_meets_no_set() {
    let state = done(insert(
        &State::default(),
        lock(1, Scope::Ecu(5), Coverage::of(&[]), 1),
    ));
    done(insert(
        &state,
        lock(2, Scope::Group(3), Coverage::of(&[5]), 2),
    ));
}

#[test]
fn sixty_four_active() {
    let mut state = State::default();
    for n in 0..64 {
        state = done(insert(
            &state,
            lock(u128::from(n), Scope::Ecu(n), Coverage::of(&[n]), 1),
        ));
    }
    let new = lock(64, Scope::Ecu(64), Coverage::of(&[64]), 1);
    let outcome = insert(&state, new);
    assert_eq!((outcome.told, outcome.state), (Told::NoRoom, state.clone()));
    let used = lock(7, Scope::Ecu(64), Coverage::of(&[64]), 1);
    assert_eq!(insert(&state, used).told, Told::DuplicateId(id(7)));
    let state = done(replace(&state, &[7], new));
    assert_eq!((state.active.len(), state.defunct.len()), (64, 1));
}
