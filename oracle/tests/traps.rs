// SPDX-License-Identifier: Apache-2.0
//! Document 01's traps and the last-revision cases, on the original.

use oracle::{
    answer::{Outcome, Reason, Seen, Told},
    generate::{Case, Profile, Rng},
    judge::Judge,
    model::{Active, Coverage, Defunct, Id, IdList, Lock, Operation, Read, Scope, State},
    paper,
    rules::broken_rule,
};

fn id(number: u128) -> Id {
    Id::from_number(number)
}

fn lock(number: u128, scope: Scope, coverage: Coverage, subject: u16) -> Lock {
    Lock::plain(id(number), scope, coverage, subject)
}

fn active(lock: Lock) -> Active {
    lock.until(100)
}

fn defunct(lock: Lock, target: Id) -> Defunct {
    Defunct {
        lock,
        expires: 100,
        broken_at: 0,
        broken_by: 0,
        target,
        holder: 9,
    }
}

fn apply(state: &State, operation: &Operation) -> Outcome {
    let outcome = Judge::new(state).apply(operation);
    assert_eq!(outcome, paper::apply(state, operation));
    outcome
}

fn ecu(number: u8, subject: u16) -> Lock {
    lock(
        number.into(),
        Scope::Ecu(number),
        Coverage::of(&[number]),
        subject,
    )
}

/// 128 defunct entries of subject 1, one active lock of subject 2 with id 200.
fn full_of_defunct() -> State {
    State {
        revision: 0,
        active: vec![active(ecu(200, 2))],
        defunct: (0..128).map(|n| defunct(ecu(n, 1), id(200))).collect(),
    }
}

#[test]
fn room_is_judged_at_the_end() {
    let state = full_of_defunct();
    let replace = |lock| Operation::CommitReplacement {
        roots: IdList::of(&[id(200)]),
        lock: active(lock),
        broken_by: 0,
        broken_at: 0,
    };
    // A 129th entry stays: no room. Superseding takes one of subject 1 away again: room.
    let stays = lock(201, Scope::Ecu(201), Coverage::of(&[201]), 3);
    assert_eq!(apply(&state, &replace(stays)).told, Told::NoRoom);
    let supersedes = lock(201, Scope::Ecu(201), Coverage::of(&[7]), 1);
    let outcome = apply(&state, &replace(supersedes));
    assert_eq!(
        (outcome.told, outcome.state.defunct.len()),
        (Told::Done, 128)
    );
}

#[test]
fn an_acknowledgement_at_the_last_revision_is_not_undone() {
    let state = State {
        revision: u64::MAX,
        active: Vec::new(),
        defunct: vec![defunct(ecu(1, 1), id(2)), defunct(ecu(2, 1), id(3))],
    };
    let left = State {
        defunct: vec![defunct(ecu(1, 1), id(3))],
        ..state.clone()
    };
    for operation in [
        Operation::AcknowledgeDefunct { id: id(2) },
        Operation::DeleteDefunct {
            id: id(2),
            scope: Scope::Ecu(2),
            subject: 1,
        },
    ] {
        let outcome = apply(&state, &operation);
        assert_eq!(
            (outcome.told, outcome.state),
            (Told::RevisionOverflow, left.clone())
        );
    }
    let outcome = apply(&state, &Operation::ExpireDefunct { now: 100 });
    assert_eq!(outcome.told, Told::RevisionOverflow);
    assert!(outcome.state.defunct.is_empty() && outcome.expired.is_empty());
    // Nothing to remove needs no revision.
    let outcome = apply(&state, &Operation::ExpireDefunct { now: 99 });
    assert_eq!((outcome.told, outcome.state), (Told::Done, state.clone()));
}

#[test]
fn overflow_comes_before_coverage_in_vehicle_insertion() {
    let half = active(lock(9, Scope::Vehicle, Coverage::of(&[6]), 1));
    let operation = Operation::InsertVehicle {
        lock: half,
        children: IdList::of(&[id(5)]),
    };
    let mut state = State {
        revision: u64::MAX,
        active: vec![active(ecu(5, 1))],
        defunct: Vec::new(),
    };
    assert_eq!(apply(&state, &operation).told, Told::RevisionOverflow);
    state.revision -= 1;
    let reason = Reason::Coverage {
        child: id(5),
        parent: id(9),
    };
    assert_eq!(apply(&state, &operation).told, Told::Invariant(reason));
}

#[test]
fn the_longest_walks() {
    let state = State {
        revision: 0,
        active: Vec::new(),
        defunct: (0..128)
            .map(|n| defunct(ecu(n, 1), id(u128::from(n) + 1)))
            .collect(),
    };
    assert_eq!(broken_rule(&state), None);
    let mut judge = Judge::new(&state);
    let stored = Read::CurrentHolder(state.defunct[0]);
    assert_eq!(
        judge.read(&stored),
        Seen::Holder {
            subject: 9,
            links: 127
        }
    );
    let foreign = Read::CurrentHolder(defunct(ecu(250, 4), id(0)));
    assert_eq!(
        judge.read(&foreign),
        Seen::Holder {
            subject: 9,
            links: 128
        }
    );
}

#[test]
fn a_ring_counts_its_start() {
    let entry = |target| State {
        defunct: vec![defunct(ecu(1, 1), id(target))],
        ..State::default()
    };
    assert_eq!(broken_rule(&entry(1)), Some(9));
    assert_eq!(broken_rule(&entry(2)), None);
}

#[test]
fn odd_lists_come_before_everything_but_an_unsound_state() {
    let vehicle = active(lock(1, Scope::Ecu(1), Coverage::Vehicle, 1));
    let operation = Operation::InsertVehicle {
        lock: vehicle,
        children: IdList(vec![0]),
    };
    assert_eq!(apply(&State::default(), &operation).told, Told::BadList);
    let broken = State {
        active: vec![vehicle, vehicle],
        ..State::default()
    };
    assert_eq!(apply(&broken, &operation).told, Told::UnsoundState(0));
}

#[test]
fn generated_states_are_sound_and_repeatable() {
    for profile in [Profile::Full, Profile::Chain, Profile::Wide, Profile::Tiny] {
        for seed in 0..20 {
            let case = Case::of(&mut Rng::new(seed), profile);
            assert_eq!(broken_rule(&case.state), None);
            assert_eq!(Case::of(&mut Rng::new(seed), profile).state, case.state);
        }
    }
}
