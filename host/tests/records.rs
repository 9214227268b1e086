// SPDX-License-Identifier: Apache-2.0
//! Records in bytes, ids in text, name tables.

use std::array;

use cablegorse::{
    ACTIVE_BYTES, Active, Coverage, DEFUNCT_BYTES, Defunct, EcuSet, LIST_LIMIT, ListTooLong, Lock,
    LockId, NameTable, Named, Operation, Overlap, Refusal, Scope, TABLE_BYTES,
    library::{self, Asked, RECORD_LIMIT, Told},
};

fn full() -> Active {
    Active {
        lock: Lock {
            id: LockId(*b"0123456789abcdef"),
            scope: Scope::FunctionalGroup(0xaa),
            exclusive: true,
            coverage: Coverage::of(&[0, 9, 255]),
            subject: 0x0102,
            principal: 0x0304_0506,
            metadata: 0x0708_090a,
        },
        expires: 0x1112_1314_1516_1718,
        parent: Some(LockId(*b"ABCDEFGHIJKLMNOP")),
    }
}

fn broken() -> Defunct {
    Defunct {
        lock: full().lock,
        expires: 1,
        broken_at: 2,
        broken_by: 3,
        replacement: LockId(*b"ABCDEFGHIJKLMNOP"),
        holder: 4,
    }
}

#[test]
fn an_active_record_by_hand() {
    let mut bytes = vec![89, 0, 2, 0];
    bytes.extend(b"0123456789abcdef");
    bytes.extend([2, 0xaa, 1, 1]);
    let mut set = [0; 32];
    (set[0], set[1], set[31]) = (1, 2, 128);
    bytes.extend(set);
    bytes.extend([2, 1, 6, 5, 4, 3, 0x0a, 9, 8, 7]);
    bytes.extend([0x18, 0x17, 0x16, 0x15, 0x14, 0x13, 0x12, 0x11, 1]);
    bytes.extend(b"ABCDEFGHIJKLMNOP");
    assert_eq!(full().encode(), bytes);
    assert_eq!(bytes.len(), ACTIVE_BYTES);
    assert_eq!(Active::decode(&bytes), Ok(full()));
}

#[test]
fn records_come_back() {
    let mut plain = full();
    plain.parent = None;
    plain.lock.scope = Scope::Vehicle;
    plain.lock.coverage = Coverage::Vehicle;
    for active in [full(), plain] {
        assert_eq!(Active::decode(&active.encode()), Ok(active));
    }
    assert_eq!(broken().encode().len(), DEFUNCT_BYTES);
    assert_eq!(Defunct::decode(&broken().encode()), Ok(broken()));
}

#[test]
fn wrong_records_are_refused_in_order() {
    let record = full().encode();
    let with = |at: usize, byte: u8| {
        let mut record = record.clone();
        record[at] = byte;
        Active::decode(&record)
    };
    let (bad, torn) = (
        Err(Refusal::BadField { offset: 0 }),
        Err(Refusal::Torn { offset: 0 }),
    );
    assert_eq!(Active::decode(&record[..3]), torn);
    assert_eq!(Active::decode(&record[..90]), torn);
    assert_eq!(with(2, 3), Err(Refusal::BadKind { offset: 0 }));
    assert_eq!(with(0, 88), bad);
    assert_eq!(with(20, 3), bad, "scope kind");
    assert_eq!(with(20, 0), bad, "a vehicle with a number");
    assert_eq!(with(22, 2), bad, "a flag");
    assert_eq!(with(23, 0), bad, "the whole vehicle with a set");
    assert_eq!(with(74, 0), bad, "no parent, but an id");
}

#[test]
fn lengths_of_feed_records() {
    let (id, lock) = (LockId::default(), full());
    let ids = vec![id; LIST_LIMIT];
    let operations = [
        (Operation::InsertActive { lock }, 16, 93),
        (
            Operation::InsertVehicle {
                lock,
                children: ids.clone(),
            },
            17,
            95 + 1024,
        ),
        (
            Operation::Renew {
                id,
                expires: 1,
                now: 2,
                metadata: None,
            },
            18,
            43,
        ),
        (Operation::Delete { id }, 19, 22),
        (Operation::BeginExpiration { id, now: 1 }, 20, 30),
        (
            Operation::CommitReplacement {
                roots: vec![],
                lock,
                broken_by: 1,
                broken_at: 2,
            },
            21,
            107,
        ),
        (Operation::AcknowledgeDefunct { id }, 22, 22),
        (Operation::ExpireDefunct { now: 1 }, 23, 14),
    ];
    for (operation, kind, length) in operations {
        let record = operation.record(0x0403_0201).unwrap();
        assert_eq!(record[..2], u16::to_le_bytes(length));
        assert_eq!(record[2..4], u16::to_le_bytes(kind));
        assert_eq!(record[4..8], [1, 2, 3, 4]);
        assert_eq!(record.len(), usize::from(length) + 2);
    }
    let mut children = ids;
    children.push(id);
    assert_eq!(
        Operation::InsertVehicle { lock, children }.record(0),
        Err(ListTooLong { ids: 65 })
    );
}

/// A feed record packed by hand, from document 01's "Records": the kind, and the body after the
/// sequence number.
fn packed(sequence: u32, kind: u16, body: &[u8]) -> Vec<u8> {
    let length = (2 + 4 + body.len()) as u16;
    let mut record = length.to_le_bytes().to_vec();
    record.extend(kind.to_le_bytes());
    record.extend(sequence.to_le_bytes());
    record.extend(body);
    record
}

fn counted(ids: &[LockId]) -> Vec<u8> {
    let mut bytes = (ids.len() as u16).to_le_bytes().to_vec();
    bytes.extend(ids.iter().flat_map(|id| id.0));
    bytes
}

/// A renewal, and its body by hand.
fn renewal(metadata: Option<u32>, packed: [u8; 5]) -> (Operation, Vec<u8>) {
    let id = LockId(*b"fedcba9876543210");
    let mut body = id.0.to_vec();
    body.extend([8, 7, 6, 5, 4, 3, 2, 1]);
    body.extend([0x28, 0x27, 0x26, 0x25, 0x24, 0x23, 0x22, 0x21]);
    body.extend(packed);
    let renew = Operation::Renew {
        id,
        expires: 0x0102_0304_0506_0708,
        now: 0x2122_2324_2526_2728,
        metadata,
    };
    (renew, body)
}

/// The two kinds with a list, and their bodies by hand.
fn listing(lock: Active, ids: &[LockId]) -> [(Operation, Vec<u8>); 2] {
    let body = &lock.encode()[4..];
    let broken = [4, 3, 2, 1, 0x18, 0x17, 0x16, 0x15, 0x14, 0x13, 0x12, 0x11];
    let insert = Operation::InsertVehicle {
        lock,
        children: ids.to_vec(),
    };
    let replace = Operation::CommitReplacement {
        roots: ids.to_vec(),
        lock,
        broken_by: 0x0102_0304,
        broken_at: 0x1112_1314_1516_1718,
    };
    [
        (insert, [body, &counted(ids)].concat()),
        (replace, [body, &broken, &counted(ids)].concat()),
    ]
}

/// So many ids, descending, no two bytes of one alike.
fn ids(count: u8) -> Vec<LockId> {
    let id = |number| LockId(array::from_fn(|byte| 3 * number + byte as u8));
    (0..count).rev().map(id).collect()
}

fn plain() -> Active {
    let mut plain = full();
    plain.parent = None;
    plain.lock.scope = Scope::Vehicle;
    plain.lock.coverage = Coverage::Vehicle;
    plain.lock.exclusive = false;
    plain
}

/// Every kind, and for each the body that its record has after the number.
fn operations() -> Vec<(Operation, Vec<u8>)> {
    let id = LockId(*b"fedcba9876543210");
    let (now, time) = (0x3132_3334_3536_3738, [56, 55, 54, 53, 52, 51, 50, 49]);
    let mut all = vec![
        renewal(None, [0; 5]),
        renewal(Some(0), [1, 0, 0, 0, 0]),
        renewal(Some(0x4142_4344), [1, 0x44, 0x43, 0x42, 0x41]),
        (Operation::Delete { id }, id.0.to_vec()),
        (
            Operation::BeginExpiration { id, now },
            [&id.0[..], &time].concat(),
        ),
        (Operation::AcknowledgeDefunct { id }, id.0.to_vec()),
        (Operation::ExpireDefunct { now }, time.to_vec()),
    ];
    let mut lists = [0, 1, 2, 64].map(ids).to_vec();
    let first = ids(1)[0];
    lists.push([&ids(3)[..], &[first, first], &ids(2)[..]].concat());
    for lock in [full(), plain()] {
        all.push((
            Operation::InsertActive { lock },
            lock.encode()[4..].to_vec(),
        ));
        all.extend(lists.iter().flat_map(|ids| listing(lock, ids)));
    }
    all
}

#[test]
fn every_feed_record_by_hand() {
    for (operation, body) in operations() {
        for sequence in [0, 0x0403_0201, u32::MAX] {
            let record = operation.record(sequence);
            let by_hand = packed(sequence, operation.kind(), &body);
            assert_eq!(record, Ok(by_hand), "{operation:?}");
        }
    }
}

#[test]
fn a_short_buffer_holds_no_record() {
    for (operation, body) in operations() {
        let (asked, list) = operation.asked();
        let record = packed(9, operation.kind(), &body);
        for length in 0..record.len() {
            let mut out = vec![0x5a; length];
            let told = library::write_record(9, &asked, &list, &mut out);
            assert_eq!((told.number, told.count), (21, 1));
            assert_eq!(told.values, [record.len() as u64, 0, 0, 0, 0]);
            assert!(out.iter().all(|byte| *byte == 0x5a));
        }
        let mut out = vec![0x5a; record.len() + 3];
        let told = library::write_record(9, &asked, &list, &mut out);
        assert_eq!((told.number, told.count), (0, 1));
        assert_eq!(told.values, [record.len() as u64, 0, 0, 0, 0]);
        assert_eq!(out, [&record[..], &[0x5a; 3]].concat());
    }
}

/// What the writer answers with an empty buffer, and with one that is large enough; a refusal leaves
/// every byte of either.
fn refused(asked: &Asked, list: &[u64]) -> [Told; 2] {
    [0, RECORD_LIMIT + 64].map(|length| {
        let mut out = vec![0x5a; length];
        let told = library::write_record(0, asked, list, &mut out);
        assert!(told.number == 0 || out.iter().all(|byte| *byte == 0x5a));
        told
    })
}

fn told(number: u32, values: &[u64]) -> Told {
    let mut told = Told {
        number,
        count: values.len() as u32,
        ..Told::default()
    };
    told.values[..values.len()].copy_from_slice(values);
    told
}

/// 14, 29, 21, in this order, and only of the kinds that have a list.
#[test]
fn lists_are_even_and_short() {
    let words: Vec<u64> = (0..132).collect();
    for (operation, _) in operations() {
        let (asked, kind) = (operation.asked().0, operation.kind());
        let lists = matches!(kind, 17 | 21);
        let base = packed(0, kind, &[]).len() + operation_bytes(kind);
        for count in [0, 1, 2, 127, 128, 129, 130, 131, 132] {
            let size = (base + if lists { count * 8 } else { 0 }) as u64;
            let due = match count {
                _ if !lists => [told(21, &[size]), told(0, &[size])],
                1 | 127 | 129 | 131 => [told(14, &[]); 2],
                130 | 132 => [told(29, &[]); 2],
                _ => [told(21, &[size]), told(0, &[size])],
            };
            let is = refused(&asked, &words[..count]);
            assert_eq!(is, due, "kind {kind}, {count} words");
        }
    }
    for (operation, _) in listing(full(), &ids(65)) {
        assert_eq!(operation.record(0), Err(ListTooLong { ids: 65 }));
    }
    let [_, (longest, _)] = listing(full(), &ids(LIST_LIMIT as u8));
    assert_eq!(
        longest.record(0).map(|record| record.len()),
        Ok(RECORD_LIMIT)
    );
}

/// Bytes of a kind's body after the sequence number, its ids aside.
fn operation_bytes(kind: u16) -> usize {
    match kind {
        16 => 87,
        17 => 89,
        18 => 37,
        20 => 24,
        21 => 101,
        23 => 8,
        _ => 16,
    }
}

#[test]
fn numbers_that_cannot_be() {
    let asked = |kind| Asked {
        kind,
        ..full_asked()
    };
    for kind in [0, 1, 2, 3, 15, 24, 255, 16 + 256, u16::MAX] {
        assert_eq!(refused(&asked(kind), &[0; 131]), [told(18, &[0]); 2]);
    }
    let wrong: [fn(&mut Asked, u8); 5] = [
        |asked, by| asked.scope = by,
        |asked, by| asked.exclusive = by,
        |asked, by| asked.coverage = by,
        |asked, by| asked.child = by,
        |asked, by| asked.given = by,
    ];
    for kind in 16..=23 {
        for (field, put) in wrong.iter().enumerate() {
            let least = if field == 0 { 3 } else { 2 };
            let read = match kind {
                16 | 17 | 21 => field < 4,
                18 => field == 4,
                _ => false,
            };
            for by in [least, 255] {
                let mut asked = asked(kind);
                put(&mut asked, by);
                let is = refused(&asked, &[0; 131]).map(|told| told.number);
                let listed = if matches!(kind, 17 | 21) {
                    [14; 2]
                } else {
                    [21, 0]
                };
                let due = if read { [19; 2] } else { listed };
                assert_eq!(is, due, "kind {kind}, field {field}");
            }
        }
    }
}

fn full_asked() -> Asked {
    Operation::InsertActive { lock: full() }.asked().0
}

/// A vehicle's number, a whole vehicle's set, the parent of a lock without one, metadata that isn't
/// given: whatever stands there, the record has zeros. And what a kind doesn't take isn't read.
#[test]
fn what_does_not_apply_is_zero() {
    for (operation, body) in operations() {
        let (mut asked, list) = operation.asked();
        let lock = matches!(asked.kind, 16 | 17 | 21);
        if !lock || asked.scope == 0 {
            asked.number = 7;
        }
        if !lock || asked.coverage == 0 {
            (asked.w0, asked.w1, asked.w2, asked.w3) = (1, 2, 3, u64::MAX);
        }
        if !lock || asked.child == 0 {
            (asked.parenthi, asked.parentlo) = (4, u64::MAX);
        }
        if !lock && (asked.kind != 18 || asked.given == 0) {
            asked.metadata = 5;
        }
        if asked.kind != 21 {
            asked.breaker = 6;
        }
        let mut out = [0x5a; RECORD_LIMIT];
        let told = library::write_record(1, &asked, &list, &mut out);
        let record = packed(1, operation.kind(), &body);
        assert_eq!(told.number, 0);
        assert_eq!(out[..record.len()], record);
    }
}

#[test]
fn ids_sort_like_their_text() {
    let ids = [0, 1, 0xff, 1 << 64, u128::MAX, 0xa0 << 120].map(LockId::from_u128);
    for a in ids {
        assert_eq!(a.to_string().parse(), Ok(a));
        assert_eq!(a.to_string().to_uppercase().parse(), Ok(a));
        let [first, second] = a.halves();
        assert_eq!(LockId::from_halves(first, second), a);
        for b in ids {
            assert_eq!(a.cmp(&b), a.to_string().cmp(&b.to_string()));
        }
    }
    for text in [
        "",
        "0",
        "0000000000000000000000000000000000-0",
        &"é".repeat(18),
    ] {
        assert!(text.parse::<LockId>().is_err());
    }
}

#[test]
fn sets_hold_every_number() {
    let all: EcuSet = (0..=255).collect();
    assert_eq!(all.0, [255; 32]);
    assert!(all.iter().eq(0..=255));
}

/// The lowest ECU in both, whichever is asked; none to name where no set names one. (At every ECU:
/// the differential run.)
#[test]
fn where_coverages_overlap() {
    let (whole, empty, set) = (Coverage::Vehicle, Coverage::of(&[]), Coverage::of);
    for (left, right, due) in [
        (whole, whole, Overlap::Meets(None)),
        (whole, empty, Overlap::Meets(None)),
        (whole, set(&[255, 63, 64]), Overlap::Meets(Some(63))),
        (
            set(&[0, 64, 200]),
            set(&[1, 64, 200]),
            Overlap::Meets(Some(64)),
        ),
        (set(&[0, 255]), set(&[255]), Overlap::Meets(Some(255))),
        (set(&[0]), set(&[0, 1]), Overlap::Meets(Some(0))),
        (set(&[1, 65]), set(&[0, 2, 64, 129]), Overlap::Apart),
        (set(&[1]), empty, Overlap::Apart),
        (empty, empty, Overlap::Apart),
    ] {
        assert_eq!(left.overlaps(&right), due, "{left:?}, {right:?}");
        assert_eq!(right.overlaps(&left), due, "{right:?}, {left:?}");
    }
}

#[test]
fn names_get_numbers() {
    let mut ecus = NameTable::folding();
    assert_eq!(ecus.number(b"Engine"), Ok(0));
    assert_eq!(ecus.number(b"BRAKES"), Ok(1));
    assert_eq!(ecus.number(b"eNGINE"), Ok(0));
    assert_eq!(ecus.name(1).as_deref(), Some(&b"brakes"[..]));
    assert_eq!((ecus.name(2), ecus.len()), (None, 2));
    let mut subjects = NameTable::exact();
    assert_eq!(subjects.number(b"Ann"), Ok(0));
    assert_eq!(subjects.number(b"ann"), Ok(1));
    assert_eq!(subjects.number(b""), Ok(2));
    assert_eq!(subjects.number(&[b'x'; 65]), Err(Refusal::NameTooLong));
    assert_eq!(subjects.number(&[b'x'; 64]), Ok(3));
}

#[test]
fn tables_come_back_and_fill_up() {
    let mut table = NameTable::folding();
    for number in 0..256u16 {
        assert_eq!(table.number(format!("ecu{number}").as_bytes()), Ok(number));
    }
    assert_eq!(table.number(b"one more"), Err(Refusal::NamesFull));
    assert_eq!(table.number(b"ECU255"), Ok(255));
    let bytes = table.as_bytes();
    assert_eq!(bytes.len(), TABLE_BYTES);
    assert_eq!(NameTable::from_bytes(bytes, true), Ok(table.clone()));
    assert_eq!(
        NameTable::from_bytes(&bytes[1..], true),
        Err(Refusal::BadTable)
    );
    let mut twice = bytes.to_vec();
    twice.copy_within(2..67, 67);
    assert_eq!(NameTable::from_bytes(&twice, true), Err(Refusal::BadTable));
}

#[test]
fn a_new_name_is_told_apart() {
    let mut subjects = NameTable::exact();
    let named = |number, new| Ok(Named { number, new });
    assert_eq!(subjects.learn(b"Ann"), named(0, true));
    assert_eq!(subjects.learn(b"Bob"), named(1, true));
    assert_eq!(subjects.learn(b"Ann"), named(0, false));
    let before = subjects.clone();
    assert_eq!(subjects.learn(&[b'x'; 65]), Err(Refusal::NameTooLong));
    assert_eq!(subjects, before);
}

/// What the documentation of `NameTable` says of a table that is used the other way.
#[test]
fn folding_belongs_to_the_table() {
    let mut ecus = NameTable::folding();
    ecus.learn(b"Engine").unwrap();
    let mut mistaken = NameTable::from_bytes(ecus.as_bytes(), false).unwrap();
    assert_eq!(mistaken.number(b"Engine"), Ok(1), "one unit, two numbers");
    assert_eq!(
        NameTable::from_bytes(mistaken.as_bytes(), true),
        Err(Refusal::BadTable)
    );
    let mut subjects = NameTable::exact();
    subjects.learn(b"ann").unwrap();
    let mut mistaken = NameTable::from_bytes(subjects.as_bytes(), true).unwrap();
    assert_eq!(mistaken.number(b"Ann"), Ok(0), "two testers, one number");
    subjects.learn(b"Ann").unwrap();
    assert_eq!(
        NameTable::from_bytes(subjects.as_bytes(), true),
        Err(Refusal::BadTable)
    );
}
