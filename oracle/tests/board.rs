// SPDX-License-Identifier: Apache-2.0
//! 02, C-11 on the original: which active locks cover each ECU, worked out by hand.

use oracle::{
    board::{self, ENTRY, SIZE, board},
    boundary::{self, Told},
    judge::Judge,
    model::{Active, Coverage, EcuSet, Id, IdList, Lock, Operation, Scope, State},
    wire,
};

fn id(number: u128) -> Id {
    Id::from_number(number)
}

fn lock(number: u128, scope: Scope, coverage: Coverage, subject: u16) -> Active {
    Lock::plain(id(number), scope, coverage, subject).until(100)
}

fn ecu(number: u128, ecu: u8, subject: u16) -> Active {
    lock(number, Scope::Ecu(ecu), Coverage::of(&[ecu]), subject)
}

fn vehicle(number: u128, subject: u16) -> Active {
    lock(number, Scope::Vehicle, Coverage::Vehicle, subject)
}

fn state(active: &[Active]) -> State {
    let mut active = active.to_vec();
    active.sort_by_key(|a| a.lock.id);
    State {
        active,
        ..State::default()
    }
}

/// The entries that aren't zero: ECU, count, id.
fn told(board: &[u8]) -> Vec<(usize, u8, u128)> {
    assert_eq!(board.len(), SIZE);
    let entries = board.chunks_exact(ENTRY).enumerate();
    entries
        .filter(|(_, entry)| entry.iter().any(|byte| *byte != 0))
        .map(|(ecu, entry)| {
            let id = entry[1..].try_into().expect("16 bytes");
            (ecu, entry[0], u128::from_be_bytes(id))
        })
        .collect()
}

fn told_of(active: &[Active]) -> Vec<(usize, u8, u128)> {
    told(&board(&state(active)))
}

#[test]
fn no_lock_and_the_empty_set_are_zeros() {
    assert_eq!(board(&State::default()), vec![0; SIZE]);
    // The scope plays no part.
    let none = lock(7, Scope::Ecu(5), Coverage::of(&[]), 1);
    assert_eq!(told_of(&[none]), []);
}

#[test]
fn the_whole_vehicle_is_every_ecu() {
    let all = |locks, lowest| -> Vec<_> { (0..256).map(|ecu| (ecu, locks, lowest)).collect() };
    assert_eq!(told_of(&[vehicle(9, 1)]), all(1, 9));
    let group = lock(4, Scope::Group(3), Coverage::Vehicle, 1);
    assert_eq!(told_of(&[vehicle(9, 1), group]), all(2, 4));
    // A set of all of them too.
    let set = Coverage::Set(EcuSet([u64::MAX; 4]));
    assert_eq!(told_of(&[lock(9, Scope::Group(3), set, 1)]), all(1, 9));
    // A vehicle lock with a set covers that set.
    let half = lock(9, Scope::Vehicle, Coverage::of(&[0, 63, 64, 255]), 1);
    let due = [0, 63, 64, 255].map(|ecu| (ecu, 1, 9));
    assert_eq!(told_of(&[half]), due);
}

#[test]
fn two_locks_on_one_ecu() {
    let group = |number| lock(number, Scope::Group(3), Coverage::of(&[5, 6]), 1);
    let first = ecu(1, 5, 1);
    assert_eq!(told_of(&[first, group(2)]), [(5, 2, 1), (6, 1, 2)]);
    // The lowest id, in whichever order they came, and compared from the first byte.
    assert_eq!(told_of(&[ecu(3, 5, 1), group(2)]), [(5, 2, 2), (6, 1, 2)]);
    let high = u128::MAX << 120;
    assert_eq!(
        told_of(&[ecu(0xff, 5, 1), group(high)]),
        [(5, 2, 0xff), (6, 1, high)]
    );
}

#[test]
fn an_id_of_zeros_counts() {
    assert_eq!(told_of(&[ecu(0, 5, 1)]), [(5, 1, 0)]);
    assert_eq!(told_of(&[ecu(0, 5, 1), vehicle(1, 2)])[5], (5, 2, 0));
}

#[test]
fn sixty_four_locks_on_one_ecu() {
    let groups: Vec<Active> = (0..64)
        .map(|n| lock(u128::from(n) + 1, Scope::Group(n), Coverage::of(&[200]), 1))
        .collect();
    assert_eq!(told_of(&groups), [(200, 64, 1)]);
}

/// The entries that an operation changed, each covered by a lock that came or went.
fn changed(before: &State, operation: &Operation) -> Vec<usize> {
    let outcome = Judge::new(before).apply(operation);
    assert_eq!(outcome.told.number(), 0, "{operation:?}");
    let (old, new) = (board(before), board(&outcome.state));
    let entry = |board: &[u8], ecu| board[ENTRY * ecu..ENTRY * (ecu + 1)].to_vec();
    let changed: Vec<usize> = (0..256)
        .filter(|ecu| entry(&old, *ecu) != entry(&new, *ecu))
        .collect();
    let counted = board::changed_by(&board::moved(before, &outcome.state), &old, &new);
    assert_eq!(counted, changed.len() as u64);
    changed
}

#[test]
fn only_what_came_or_went_changes_entries() {
    let group = lock(2, Scope::Group(3), Coverage::of(&[5, 6]), 1);
    let held = state(&[ecu(3, 5, 1), group, ecu(4, 9, 2)]);
    let insert = |lock| Operation::InsertActive { lock };
    assert_eq!(changed(&held, &insert(ecu(1, 7, 1))), [7]);
    // Its tree goes: the group takes the lock on ECU 5 along.
    assert_eq!(changed(&held, &Operation::Delete { id: id(2) }), [5, 6]);
    let replacement = Operation::CommitReplacement {
        roots: IdList::of(&[id(2)]),
        lock: ecu(8, 6, 7),
        broken_by: 0,
        broken_at: 0,
    };
    assert_eq!(changed(&held, &replacement), [5, 6]);
    let renewal = Operation::Renew {
        id: id(2),
        expires: 200,
        now: 0,
        metadata: None,
    };
    assert_eq!(changed(&held, &renewal), []);
    // Adopted locks stay; the vehicle lock that came covers ECU 9 alone.
    let lock = lock(9, Scope::Vehicle, Coverage::of(&[9]), 2);
    let children = IdList::of(&[id(4)]);
    let adoption = Operation::InsertVehicle { lock, children };
    assert_eq!(changed(&held, &adoption), [9]);
}

#[test]
#[should_panic(expected = "the entry of ECU 5 changed")]
fn an_entry_that_changes_by_itself_is_told() {
    let held = state(&[ecu(3, 5, 1), ecu(4, 9, 2)]);
    let later = state(&[ecu(3, 5, 1)]);
    let moved = board::moved(&held, &later);
    assert_eq!(moved, [ecu(4, 9, 2)]);
    let mut wrong = board(&later);
    wrong[ENTRY * 5] += 1;
    let _ = board::changed_by(&moved, &board(&held), &wrong);
}

/// What the library must answer: 28 after the image's refusals, before the record is looked at.
#[test]
fn the_boundary_s_answers() {
    let held = state(&[ecu(3, 5, 1)]);
    let image = wire::write_image(&held, 7).expect("a sound state");
    let own = board(&held);
    let mut out = vec![0xa5; SIZE + 1];
    let told = boundary::board(&image, &mut out);
    assert_eq!(told, Told::new(0, &[SIZE as u64]));
    assert_eq!(out, [&own[..], &[0xa5]].concat());
    let short = boundary::board(&image, &mut out[..SIZE - 1]);
    assert_eq!(short, Told::new(21, &[SIZE as u64]));

    let record = wire::write_feed(&Operation::Delete { id: id(3) }, 7).expect("a record");
    let apply = |board: &mut [u8], feed: &[u8], length| {
        let mut outputs = [vec![0xa5; length], vec![0xa5; 91], vec![]];
        let [next, removed, expired] = &mut outputs;
        let applied = boundary::apply_board(&image, board, feed, 0, next, removed, expired);
        (applied.told.number, applied.part, outputs)
    };
    let left = |length| [vec![0xa5; length], vec![0xa5; 91], vec![]];
    for (lent, feed) in [
        (&own[1..], &record[..]),
        (&out[..], &record[..]),
        (&[][..], &[][..]),
        (&vec![0; SIZE], b"no record"),
    ] {
        let mut kept = lent.to_vec();
        assert_eq!(apply(&mut kept, feed, 20), (28, 0, left(20)));
        assert_eq!(kept, lent);
    }
    let mut lent = own.clone();
    assert_eq!(apply(&mut lent, b"no record", 20).0, 18);
    assert_eq!(apply(&mut lent, &record, 19), (21, 3, left(19)));
    assert_eq!(lent, own);
    let (number, part, outputs) = apply(&mut lent, &record, 20);
    assert_eq!((number, part, outputs[1][2]), (0, 2, 2));
    assert_eq!(lent, vec![0; SIZE]);

    // No such scope: 19, after 28.
    let delete = |image: &[u8], board: &[u8]| {
        let applied = boundary::delete_defunct_board(image, board, [0, 3], 9, 9, 1, &mut []);
        (applied.told.number, applied.part)
    };
    assert_eq!(delete(&image, &own), (19, 1));
    assert_eq!(delete(&image, &lent), (28, 0));
    assert_eq!(delete(&image[1..], &lent).1, 0);
    assert_ne!(delete(&image[1..], &lent).0, 28);
}
