// SPDX-License-Identifier: Apache-2.0
//! 02, C-12 through the crate: what a primary performs is what its record says.

use cablegorse::{
    Active, Coverage, ListTooLong, Lock, LockId, Operation, Refusal, Replica, Scope,
    library::{
        self, Applied, Asked, EXPIRED_LIMIT, IMAGE_LIMIT, Part, RECORD_LIMIT, REMOVED_LIMIT,
    },
};

fn id(number: u128) -> LockId {
    LockId::from_u128(number)
}

fn lock(number: u128, scope: Scope, coverage: Coverage, subject: u16) -> Active {
    Active {
        lock: Lock {
            id: id(number),
            scope,
            exclusive: true,
            coverage,
            subject,
            principal: 11,
            metadata: 12,
        },
        expires: 100,
        parent: None,
    }
}

fn ecu(number: u128, ecu: u8, subject: u16) -> Active {
    lock(number, Scope::Ecu(ecu), Coverage::of(&[ecu]), subject)
}

fn vehicle(number: u128, subject: u16) -> Active {
    lock(number, Scope::Vehicle, Coverage::Vehicle, subject)
}

fn replace(roots: &[u128], lock: Active) -> Operation {
    Operation::CommitReplacement {
        roots: roots.iter().copied().map(id).collect(),
        lock,
        broken_by: 31,
        broken_at: 50,
    }
}

/// Every kind, done and refused, what it removes and what it expires.
fn morning() -> Vec<Operation> {
    let insert = |lock| Operation::InsertActive { lock };
    let renew = |expires, metadata| Operation::Renew {
        id: id(1),
        expires,
        now: 10,
        metadata,
    };
    let begin = |now| Operation::BeginExpiration { id: id(1), now };
    vec![
        insert(ecu(1, 5, 1)),
        insert(ecu(2, 6, 1)),
        insert(ecu(3, 5, 2)),
        renew(200, Some(7)),
        renew(200, None),
        Operation::InsertVehicle {
            lock: vehicle(4, 1),
            children: vec![id(2), id(1), id(2)],
        },
        begin(199),
        replace(&[4, 1, 4], ecu(5, 5, 3)),
        replace(&[9], ecu(6, 7, 3)),
        begin(200),
        Operation::AcknowledgeDefunct { id: id(2) },
        Operation::AcknowledgeDefunct { id: id(2) },
        Operation::ExpireDefunct { now: 150 },
        Operation::Delete { id: id(5) },
        Operation::Delete { id: id(5) },
    ]
}

/// The four outputs of a call, each of this length and full of fives.
fn outputs(lengths: [usize; 4]) -> [Vec<u8>; 4] {
    lengths.map(|length| vec![5; length])
}

const ROOM: [usize; 4] = [IMAGE_LIMIT, REMOVED_LIMIT, EXPIRED_LIMIT, RECORD_LIMIT];

fn perform(image: &[u8], asked: &Asked, list: &[u64], outputs: &mut [Vec<u8>; 4]) -> Applied {
    let [next, removed, expired, sent] = outputs;
    library::perform(image, asked, list, next, removed, expired, sent)
}

#[test]
fn performed_is_written_and_applied() {
    let mut primary = Replica::empty();
    for operation in morning() {
        let (image, expected) = (primary.image().to_vec(), primary.expected());
        let (asked, list) = operation.asked();
        let mut left = outputs(ROOM);
        let applied = perform(&image, &asked, &list, &mut left);
        let record = operation.record(expected).unwrap();
        assert_eq!((applied.part, applied.sequence), (Part::Applied, expected));
        assert_eq!(left[3][..applied.place], record);

        let [mut next, mut removed, mut expired, sent] = outputs(ROOM);
        let due = library::apply(&image, &record, 0, &mut next, &mut removed, &mut expired);
        assert_eq!(applied, due);
        assert!(left[..3] == [next, removed, expired]);
        assert_eq!(left[3][record.len()..], sent[record.len()..]);

        let (own, step) = primary.perform(&operation).unwrap();
        assert_eq!((own, step.applied, step.sequence), (record, true, expected));
        assert_eq!(primary.image(), &left[0][..applied.written]);
    }
    let counts = (primary.active_count(), primary.defunct_count());
    assert_eq!((primary.expected(), counts), (15, (0, 1)));
}

/// A spare that gets the records ends as the primary, and a primary with a board gives the same.
#[test]
fn both_ends_and_a_board() {
    let (mut primary, mut watched) = (Replica::empty(), Replica::empty());
    watched.watch();
    let mut spare = Replica::empty();
    for operation in morning() {
        let performed = primary.perform(&operation).unwrap();
        assert_eq!(watched.perform(&operation).unwrap(), performed);
        let (record, step) = performed;
        assert_eq!(spare.apply(&record, 0), step);
        assert_eq!((&spare, &watched), (&primary, &primary));
    }
}

/// Any of the four a byte too short: 21 with what all four need, and nothing is written.
#[test]
fn all_four_or_none() {
    let mut primary = Replica::empty();
    for operation in morning() {
        let (asked, list) = operation.asked();
        let mut left = outputs(ROOM);
        let applied = perform(primary.image(), &asked, &list, &mut left);
        let needed = [
            applied.written,
            applied.gone * 91,
            applied.lapsed * 16,
            applied.place,
        ];
        for short in (0..4).filter(|output| needed[*output] > 0) {
            let mut lengths = needed;
            lengths[short] -= 1;
            let mut left = outputs(lengths);
            let told = perform(primary.image(), &asked, &list, &mut left);
            assert_eq!((told.part, told.told.number), (Part::ShortOutput, 21));
            assert_eq!(told.told.values[..4], needed.map(|bytes| bytes as u64));
            assert_eq!((told.sequence, told.place), (primary.expected(), 0));
            assert_eq!((told.written, told.gone, told.lapsed), (0, 0, 0));
            assert!(left == outputs(lengths));
            let refusal = Refusal::from_told(&told.told);
            let [next, removed, expired, _] = needed;
            let needed = [next, removed, expired];
            assert_eq!(refusal, Some(Refusal::ShortOutput { needed }));
        }
        let mut exact = outputs(needed);
        let told = perform(primary.image(), &asked, &list, &mut exact);
        assert_eq!(told, applied);
        primary.perform(&operation).unwrap();
    }
}

/// The image's refusals, then 18, 19, 14, 29, 21; each leaves everything.
#[test]
fn refusals_in_their_order() {
    let image = Replica::empty().image().to_vec();
    let with = |at: usize, byte: u8| {
        let mut image = image.clone();
        image[at] = byte;
        image
    };
    let mut unsound = Replica::empty();
    for lock in [ecu(1, 5, 1), ecu(2, 6, 1)] {
        unsound.perform(&Operation::InsertActive { lock }).unwrap();
    }
    let mut unsound = unsound.image().to_vec();
    unsound[20 + 91 + 21] = 5; // ECU 5 twice
    let (bad, (good, _)) = (Asked::default(), replace(&[], ecu(1, 5, 1)).asked());
    let flagged = Asked { child: 2, ..good };
    let (odd, long) = (vec![0; 131], vec![0; 130]);
    for (image, asked, list, part, number) in [
        (&image[..19], bad, &odd, Part::ImageRefused, 17),
        (&with(2, 9), bad, &odd, Part::ImageRefused, 18),
        (&with(0, 9), bad, &odd, Part::ImageRefused, 19),
        (
            &[&image[..], &[0]].concat(),
            bad,
            &odd,
            Part::ImageRefused,
            20,
        ),
        (&unsound, bad, &odd, Part::ImageRefused, 12),
        (&image, bad, &odd, Part::RecordRefused, 18),
        (&image, flagged, &odd, Part::RecordRefused, 19),
        (&image, good, &odd, Part::RecordRefused, 14),
        (&image, good, &long, Part::RecordRefused, 29),
        (&image, good, &vec![], Part::ShortOutput, 21),
    ] {
        let mut left = outputs([0, 0, 0, 9]);
        let told = perform(image, &asked, list, &mut left);
        assert_eq!((told.told.number, told.part), (number, part));
        assert_eq!((told.sequence, told.place), (0, 0));
        assert!(left == outputs([0, 0, 0, 9]));
    }
}

/// An operation that no record holds changes nothing, and gives nothing to send.
#[test]
fn too_many_ids_are_not_performed() {
    let children = (1..66).map(id).collect();
    let adopt = Operation::InsertVehicle {
        lock: vehicle(99, 1),
        children,
    };
    let mut primary = Replica::empty();
    for watched in [false, true] {
        if watched {
            primary.watch();
        }
        assert_eq!(primary.perform(&adopt), Err(ListTooLong { ids: 65 }));
        assert_eq!(primary, Replica::empty());
    }
}
