// SPDX-License-Identifier: Apache-2.0
//! 02, C-20 on the original, as crates/stories computes it: subject 1 locks ECU 5, subject 2 breaks
//! that lock, subject 3 breaks that one.

use oracle::{
    judge::Judge,
    model::{Active, Coverage, Defunct, Id, IdList, Lock, Operation, Scope, State},
    stories::{self, Retold, Story},
};

fn id(number: u128) -> Id {
    Id::from_number(number)
}

fn lock(number: u128, scope: Scope, coverage: Coverage, subject: u16) -> Active {
    Lock::plain(id(number), scope, coverage, subject).until(100)
}

/// ECU 5, locked by a subject.
fn ecu(number: u128, subject: u16) -> Active {
    lock(number, Scope::Ecu(5), Coverage::of(&[5]), subject)
}

fn broken(old: u128, new: u128, subject: u16) -> Operation {
    Operation::CommitReplacement {
        roots: IdList::of(&[id(old)]),
        lock: ecu(new, subject),
        broken_by: 0,
        broken_at: 0,
    }
}

fn after(state: &State, operation: &Operation) -> State {
    Judge::new(state).apply(operation).state
}

/// Of each entry its id, who holds, through how many entries.
fn told(state: &State) -> Vec<(u128, u16, u32)> {
    let mut judge = Judge::new(state);
    let story = |entry: &Defunct| {
        let story = stories::told(&mut judge, entry.lock.id).expect("it is there");
        let number = u128::from_be_bytes(entry.lock.id.0);
        (number, story.subject, story.links)
    };
    state.defunct.iter().map(story).collect()
}

/// The entry 1, of subject 1, whose lock was renewed to 200; the lock 2 of subject 2.
fn once_broken() -> State {
    let renew = Operation::Renew {
        id: id(1),
        expires: 200,
        now: 0,
        metadata: None,
    };
    let first = Operation::InsertActive { lock: ecu(1, 1) };
    [first, renew, broken(1, 2, 2)]
        .iter()
        .fold(State::default(), |state, operation| {
            after(&state, operation)
        })
}

/// The entry 1 of subject 1 and the entry 2 of subject 2; the lock 3 of subject 3.
fn twice_broken() -> State {
    after(&once_broken(), &broken(2, 3, 3))
}

/// What is told after an operation that 02 states it of.
fn told_after(state: &State, operation: &Operation) -> Vec<(u128, u16, u32)> {
    let left = after(state, operation);
    assert!(stories::is_stated(operation, &left), "{operation:?}");
    told(&left)
}

#[test]
fn clearing_keeps_the_story() {
    let state = twice_broken();
    assert_eq!(told(&state), [(1, 3, 1), (2, 3, 0)]);
    let acknowledge = |number| Operation::AcknowledgeDefunct { id: id(number) };
    assert_eq!(told_after(&state, &acknowledge(2)), [(1, 3, 0)]);
    assert_eq!(told_after(&state, &acknowledge(1)), [(2, 3, 0)]);
    let expire = Operation::ExpireDefunct { now: 100 };
    assert_eq!(told_after(&state, &expire), [(1, 3, 0)]);
    let delete = Operation::DeleteDefunct {
        id: id(2),
        scope: Scope::Ecu(5),
        subject: 2,
    };
    assert_eq!(told_after(&state, &delete), [(1, 3, 0)]);
    // A vehicle lock of subject 2 supersedes entry 2.
    let lock = lock(9, Scope::Vehicle, Coverage::Vehicle, 2);
    let insert = Operation::InsertActive { lock };
    assert_eq!(told_after(&state, &insert), [(1, 3, 0)]);
    let children = IdList::of(&[]);
    let insert = Operation::InsertVehicle { lock, children };
    assert_eq!(told_after(&state, &insert), [(1, 3, 0)]);
    // At the last revision the entry is gone all the same.
    let last = State {
        revision: u64::MAX,
        ..state
    };
    for clear in [acknowledge(2), expire, delete] {
        assert_eq!(Judge::new(&last).apply(&clear).told.number(), 8);
        assert_eq!(told_after(&last, &clear), [(1, 3, 0)]);
    }
}

#[test]
fn a_copy_may_tell_another_story() {
    let state = twice_broken();
    let copy = state.defunct[0];
    let cleared = after(&state, &Operation::AcknowledgeDefunct { id: id(2) });
    let story = stories::told_of(&mut Judge::new(&cleared), &copy);
    assert_eq!((story.subject, story.links), (2, 0));
}

#[test]
fn where_nothing_is_said_another_story_may_be_told() {
    let changed = |state: &State, operation: &Operation| {
        let left = after(state, operation);
        assert!(!stories::is_stated(operation, &left), "{operation:?}");
        left
    };
    let state = changed(&once_broken(), &broken(2, 3, 3));
    assert_eq!(told(&once_broken()), [(1, 2, 0)]);
    assert_eq!(told(&state), [(1, 3, 1), (2, 3, 0)]);
    let delete = Operation::Delete { id: id(3) };
    let gone = changed(&state, &delete);
    assert_eq!(told(&gone), [(1, 3, 1), (2, 3, 0)]);
    // A lock of subject 4 with the id that entry 2 still names, which goes again.
    let reused = changed(&gone, &Operation::InsertActive { lock: ecu(3, 4) });
    assert_eq!(told(&reused), [(1, 4, 1), (2, 4, 0)]);
    let expire = Operation::BeginExpiration {
        id: id(3),
        now: 100,
    };
    for operation in [delete, expire] {
        assert_eq!(told(&changed(&reused, &operation)), [(1, 3, 1), (2, 3, 0)]);
    }
}

#[test]
fn more_entries_are_another_story() {
    let story = |subject, links| Story { subject, links };
    let retold = |after| Retold::of(Some(story(3, 1)), after);
    assert_eq!(retold(story(3, 1)), Retold::Same);
    assert_eq!(retold(story(3, 0)), Retold::Fewer);
    assert_eq!(retold(story(3, 2)), Retold::Another);
    assert_eq!(retold(story(4, 0)), Retold::Another);
    assert_eq!(Retold::of(None, story(3, 1)), Retold::New);
}
