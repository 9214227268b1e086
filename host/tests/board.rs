// SPDX-License-Identifier: Apache-2.0
//! 02, C-11 through the crate: the board that a replica keeps, and the boundary's forms with one.

use cablegorse::{
    Active, Coverage, Done, Lock, LockId, OnEcu, Operation, Refusal, Replica, Scope,
    library::{self, BOARD_BYTES, Part},
};

fn id(number: u128) -> LockId {
    LockId::from_u128(number)
}

fn lock(number: u128, scope: Scope, coverage: Coverage, subject: u16) -> Active {
    Active {
        lock: Lock {
            id: id(number),
            scope,
            exclusive: false,
            coverage,
            subject,
            principal: 0,
            metadata: 0,
        },
        expires: 100,
        parent: None,
    }
}

fn ecu(number: u128, ecu: u8, subject: u16) -> Active {
    lock(number, Scope::Ecu(ecu), Coverage::of(&[ecu]), subject)
}

fn group(number: u128, ecus: &[u8], subject: u16) -> Active {
    let scope = Scope::FunctionalGroup(number as u8);
    lock(number, scope, Coverage::of(ecus), subject)
}

fn vehicle(number: u128, subject: u16) -> Active {
    lock(number, Scope::Vehicle, Coverage::Vehicle, subject)
}

fn watched() -> Replica {
    let mut replica = Replica::empty();
    replica.watch();
    replica
}

fn fresh(image: &[u8]) -> Vec<u8> {
    let mut board = vec![0xa5; BOARD_BYTES];
    let told = library::board(image, &mut board);
    assert_eq!((told.number, told.values[0]), (0, BOARD_BYTES as u64));
    board
}

/// The board that is kept is the one that would be made now.
fn check(replica: &Replica) {
    assert_eq!(replica.board().unwrap()[..], fresh(replica.image())[..]);
}

fn perform(replica: &mut Replica, operation: &Operation) -> u32 {
    let (_, step) = replica.perform(operation).expect("few ids");
    assert!(step.applied);
    check(replica);
    step.number()
}

fn insert(replica: &mut Replica, lock: Active) -> u32 {
    perform(replica, &Operation::InsertActive { lock })
}

fn replace(roots: &[u128], lock: Active) -> Operation {
    Operation::CommitReplacement {
        roots: roots.iter().copied().map(id).collect(),
        lock,
        broken_by: 0,
        broken_at: 0,
    }
}

/// Count and lowest id of these ECUs.
fn told<const N: usize>(replica: &Replica, ecus: [u8; N]) -> [(u8, u128); N] {
    ecus.map(|ecu| {
        let OnEcu { locks, lowest } = replica.on_ecu(ecu).expect("it is watched");
        assert_eq!(lowest.is_none(), locks == 0);
        (locks, lowest.unwrap_or_default().as_u128())
    })
}

/// Locks 3 on ECU 5 and 2 on ECUs 5 and 6 of subject 1, lock 4 on ECU 9 of subject 2, and a
/// defunct lock 1 of subject 1 on ECU 9.
fn some() -> Replica {
    let mut replica = watched();
    for lock in [ecu(3, 5, 1), group(2, &[5, 6], 1), ecu(1, 9, 1)] {
        assert_eq!(insert(&mut replica, lock), 0);
    }
    assert_eq!(perform(&mut replica, &replace(&[1], ecu(4, 9, 2))), 0);
    replica
}

#[test]
fn not_watched_is_not_the_same_as_no_lock() {
    let mut replica = Replica::empty();
    assert_eq!((replica.board(), replica.on_ecu(5)), (None, None));
    replica.watch();
    assert_eq!(replica.board(), Some(&[0; BOARD_BYTES]));
    let none = OnEcu {
        locks: 0,
        lowest: None,
    };
    assert!((0..=255).all(|ecu| replica.on_ecu(ecu) == Some(none)));
    replica.unwatch();
    assert_eq!(replica.on_ecu(5), None);
}

#[test]
fn which_locks_are_on_an_ecu() {
    let mut replica = some();
    assert_eq!(told(&replica, [5, 6, 9]), [(2, 2), (1, 2), (1, 4)]);
    assert_eq!(told(&replica, [0, 4, 7, 255]), [(0, 0); 4]);
    // The whole vehicle is every ECU, and its id is above the others.
    assert_eq!(insert(&mut replica, vehicle(9, 7)), 0);
    assert_eq!(told(&replica, [5, 6, 9]), [(3, 2), (2, 2), (2, 4)]);
    assert_eq!(told(&replica, [0, 4, 7, 255]), [(1, 9); 4]);
    // An id of zeros is an id; a lock on an ECU that covers nothing isn't on it.
    let mut replica = watched();
    insert(&mut replica, ecu(0, 5, 1));
    insert(&mut replica, lock(7, Scope::Ecu(6), Coverage::of(&[]), 1));
    assert_eq!(replica.on_ecu(5).unwrap().lowest, Some(LockId::default()));
    assert_eq!(told(&replica, [5, 6]), [(1, 0), (0, 0)]);
}

/// Each operation, done and refused: `perform` compares the boards.
#[test]
fn after_every_operation_it_is_a_fresh_one() {
    let mut replica = some();
    assert_eq!(insert(&mut replica, ecu(8, 9, 1)), 2);
    assert_eq!(insert(&mut replica, group(8, &[9, 10], 1)), 7);
    let renewal = Operation::Renew {
        id: id(2),
        expires: 200,
        now: 0,
        metadata: None,
    };
    assert_eq!(perform(&mut replica, &renewal), 0);
    let adoption = Operation::InsertVehicle {
        lock: vehicle(9, 1),
        children: vec![id(2)],
    };
    assert_eq!(perform(&mut replica, &adoption), 0);
    assert_eq!(told(&replica, [5, 255]), [(3, 2), (1, 9)]);
    // The vehicle lock goes, and its child with it.
    assert_eq!(perform(&mut replica, &replace(&[9], group(10, &[7], 3))), 0);
    assert_eq!(told(&replica, [6, 7, 255]), [(0, 0), (1, 10), (0, 0)]);
    let begin = |now| Operation::BeginExpiration { id: id(4), now };
    assert_eq!(perform(&mut replica, &begin(99)), 0);
    assert_eq!(told(&replica, [9]), [(1, 4)]);
    assert_eq!(perform(&mut replica, &begin(100)), 0);
    assert_eq!(told(&replica, [9]), [(0, 0)]);
    for clear in [
        Operation::AcknowledgeDefunct { id: id(9) },
        Operation::ExpireDefunct { now: 1000 },
        Operation::Delete { id: id(77) },
        Operation::Delete { id: id(10) },
    ] {
        perform(&mut replica, &clear);
    }
    assert_eq!(told(&replica, [7]), [(0, 0)]);
}

#[test]
fn delete_defunct_leaves_it() {
    let mut replica = some();
    let board = *replica.board().unwrap();
    let mut delete = |scope, subject| {
        let answer = replica.delete_defunct(id(1), scope, subject);
        assert_eq!(*replica.board().unwrap(), board);
        check(&replica);
        answer
    };
    assert_eq!(delete(Scope::Ecu(8), 1), Ok(false));
    assert_eq!(delete(Scope::Ecu(9), 2), Err(Refusal::Forbidden));
    assert_eq!(delete(Scope::Ecu(9), 1), Ok(true));
    assert_eq!(delete(Scope::Ecu(9), 1), Ok(false));
    assert_eq!(replica.defunct_count(), 0);
}

/// A chunk with a record out of turn, one twice and garbage behind it: the same run and the same
/// image as without a board.
#[test]
fn a_chunk_is_followed_with_it() {
    let mut primary = Replica::empty();
    let mut records = Vec::new();
    for operation in [
        Operation::InsertActive { lock: ecu(1, 5, 1) },
        Operation::InsertActive {
            lock: group(2, &[5, 6], 2),
        },
        replace(&[1], group(3, &[6, 7], 2)),
    ] {
        records.push(primary.perform(&operation).expect("few ids").0);
    }
    let order = [0, 2, 0, 1, 2];
    let chunk: Vec<u8> = order.iter().flat_map(|n| records[*n].clone()).collect();
    for end in [&[][..], &[9], &[9, 9, 9, 9, 9]] {
        let chunk = [&chunk, end].concat();
        let (mut plain, mut spare) = (Replica::empty(), watched());
        let run = spare.follow(&chunk);
        assert_eq!(run, plain.follow(&chunk));
        assert_eq!((run.read, run.applied, &spare), (5, 3, &primary));
        assert_eq!((&plain, run.stop.is_some()), (&spare, !end.is_empty()));
        check(&spare);
        assert_eq!(told(&spare, [5, 6, 7]), [(0, 0), (1, 3), (1, 3)]);
        // A repeat and what can't be read leave it.
        assert!(!spare.apply(&records[0], 0).applied);
        assert!(spare.apply(&[1, 2, 3], 0).is_bad());
        check(&spare);
    }
}

#[test]
fn a_copy_keeps_it_and_another_image_has_its_own() {
    let mut replica = some();
    let mut copy = replica.clone();
    assert_eq!(perform(&mut copy, &Operation::Delete { id: id(4) }), 0);
    assert_eq!(told(&copy, [9]), [(0, 0)]);
    assert_eq!(told(&replica, [9]), [(1, 4)]);

    // An image that is refused changes nothing.
    let image = replica.image().to_vec();
    let torn = Refusal::Torn { offset: 0 };
    assert_eq!(replica.read_in(&copy.image()[..7]), Err(torn));
    assert_eq!(
        (replica.image(), told(&replica, [9])),
        (&image[..], [(1, 4)])
    );
    assert_eq!(replica.read_in(copy.image()), Ok(()));
    assert_eq!(told(&replica, [9]), [(0, 0)]);
    assert_eq!(insert(&mut replica, ecu(6, 9, 1)), 0);

    let mut plain = Replica::empty();
    assert_eq!(plain.read_in(copy.image()), Ok(()));
    assert_eq!((&plain, plain.board()), (&copy, None));
    assert_eq!(Replica::from_image(&image).unwrap().board(), None);
}

#[test]
fn a_board_is_made_where_there_is_room() {
    let image = some().image().to_vec();
    for length in [0, 1, BOARD_BYTES - 1] {
        let mut out = vec![0xa5; length];
        let told = library::board(&image, &mut out);
        assert_eq!((told.number, told.count), (21, 1));
        assert_eq!(told.values[0], BOARD_BYTES as u64);
        assert_eq!(out, vec![0xa5; length]);
    }
    let mut out = vec![0xa5; BOARD_BYTES + 3];
    let told = library::board(&image, &mut out);
    assert_eq!((told.number, told.count), (0, 1));
    assert_eq!(out, [&fresh(&image)[..], &[0xa5; 3]].concat());
    // No image, no board, whatever the room.
    for length in [0, BOARD_BYTES] {
        let mut out = vec![0xa5; length];
        assert_eq!(library::board(&image[1..], &mut out).number, 18);
        assert_eq!(out, vec![0xa5; length]);
    }
}

/// Boards that aren't the image's own: each entry's count, first and last byte of its id changed, a
/// board of before, one of zeros, and other sizes.
fn others(own: &[u8], before: &[u8]) -> Vec<Vec<u8>> {
    let mut others = vec![before.to_vec(), vec![0; BOARD_BYTES], Vec::new()];
    others.push(own[..BOARD_BYTES - 1].to_vec());
    others.push([own, &[0]].concat());
    for at in (0..256).flat_map(|ecu| [17 * ecu, 17 * ecu + 1, 17 * ecu + 16]) {
        let mut board = own.to_vec();
        board[at] ^= 1;
        others.push(board);
    }
    others
}

#[test]
fn another_board_is_refused_and_all_is_left() {
    let before = some();
    let mut replica = before.clone();
    perform(&mut replica, &Operation::Delete { id: id(4) });
    let (image, own) = (replica.image(), *replica.board().unwrap());
    let record = Operation::Delete { id: id(2) }.record(5).unwrap();
    let feed = [&[7; 3][..], &record].concat();
    for other in others(&own, before.board().unwrap()) {
        let mut board = other.clone();
        let mut outputs = [vec![7; 20_000], vec![7; 6_000], vec![7; 3_000]];
        let kept = outputs.clone();
        let [next, removed, expired] = &mut outputs;
        // A record that is due, and bytes that are none: 28 comes first.
        for at in [3, 0] {
            let applied =
                library::apply_board(image, &mut board, &feed, at, next, removed, expired);
            assert_eq!((applied.part, applied.place), (Part::ImageRefused, at));
            assert_eq!((applied.told.number, applied.told.count), (28, 0));
            assert_eq!((applied.sequence, applied.written), (0, 0));
            let refusal = Refusal::from_told(&applied.told).unwrap();
            assert_eq!(
                (refusal.name(), refusal.response_class()),
                ("BoardMismatch", None)
            );
        }
        // A scope that is none (19): 28 comes first.
        for scope in [(1, 9), (9, 9)] {
            let applied = library::delete_defunct_board(image, &board, [0, 1], scope, 1, next);
            assert_eq!(
                (applied.part, applied.told.number),
                (Part::ImageRefused, 28)
            );
        }
        assert!(board == other && outputs == kept);
    }
    // An image that is none: its own refusal comes first.
    let mut board = own;
    let applied = library::apply_board(&[], &mut board, &feed, 3, &mut [], &mut [], &mut []);
    assert_eq!(
        (applied.part, applied.told.number),
        (Part::ImageRefused, 17)
    );
    let applied = library::delete_defunct_board(&[], &[], [0, 1], (1, 9), 1, &mut []);
    assert_eq!(
        (applied.part, applied.told.number),
        (Part::ImageRefused, 17)
    );
    assert_eq!(board, own);
    let applied = library::delete_defunct_board(image, &own, [0, 1], (9, 9), 1, &mut []);
    assert_eq!(
        (applied.part, applied.told.number),
        (Part::RecordRefused, 19)
    );
}

/// All four outputs are written, or none.
#[test]
fn a_short_output_leaves_the_board() {
    let replica = some();
    let (image, own) = (replica.image(), *replica.board().unwrap());
    let record = Operation::Delete { id: id(2) }.record(4).unwrap();
    let needed = image.len() - 2 * 91;
    for (next, removed, part) in [
        (needed - 1, 182, Part::ShortOutput),
        (needed, 181, Part::ShortOutput),
        (needed, 182, Part::Applied),
    ] {
        let mut board = own;
        let mut outputs = [vec![7; next], vec![7; removed]];
        let [next, removed] = &mut outputs;
        let applied = library::apply_board(image, &mut board, &record, 0, next, removed, &mut []);
        assert_eq!(applied.part, part);
        if part == Part::Applied {
            assert_eq!(applied.told.number, 0);
            assert_eq!(board[..], fresh(&outputs[0])[..]);
            let on = [5, 6, 9].map(|ecu| OnEcu::in_board(&board, ecu).locks);
            assert_eq!(on, [0, 0, 1]);
        } else {
            assert_eq!(applied.told.number, 21);
            assert!(board == own && outputs.concat().iter().all(|byte| *byte == 7));
        }
    }
}

/// Done alike in the two ways of a host that keeps its own bytes.
#[test]
fn a_done_is_a_done() {
    let (mut with, mut without) = (some(), some());
    without.unwatch();
    let operation = replace(&[2], ecu(8, 5, 7));
    let (record, step) = with.perform(&operation).unwrap();
    assert_eq!(step.answer, Ok(Done::Done));
    assert_eq!(without.apply(&record, 0), step);
    assert_eq!(with, without);
}
