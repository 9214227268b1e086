// SPDX-License-Identifier: Apache-2.0
//! 02, C-12, in the judge: an operation as numbers, its record, and both in one call.

use oracle::{
    asked::Asked,
    boundary::{Applied, Told, apply, perform, write_record},
    generate::{self, Case, Profile, Rng},
    model::State,
    wire::{read_feed, write_feed, write_image},
};

/// A replacement with every number its own.
fn replacement() -> Asked {
    Asked {
        id: [0x0102_0304_0506_0708, 0x090a_0b0c_0d0e_0f10],
        parent: [0x1112_1314_1516_1718, 0x191a_1b1c_1d1e_1f20],
        set: [1, 2, 3, 1 << 63],
        expires: 0x2122_2324_2526_2728,
        now: 0x3132_3334_3536_3738,
        principal: 0x4142_4344,
        metadata: 0x5152_5354,
        breaker: 0x6162_6364,
        kind: 21,
        subject: 0x7172,
        scope: 2,
        number: 9,
        exclusive: 1,
        coverage: 1,
        child: 1,
        given: 7,
    }
}

/// Its record with two ids, by 01's table.
fn packed() -> Vec<u8> {
    let mut bytes = vec![107 + 32, 0, 21, 0, 0xd4, 0xc3, 0xb2, 0xa1];
    bytes.extend(1..=16);
    bytes.extend([2, 9, 1, 1]);
    for word in [1, 2, 3] {
        bytes.extend([word, 0, 0, 0, 0, 0, 0, 0]);
    }
    bytes.extend([0, 0, 0, 0, 0, 0, 0, 0x80]);
    bytes.extend([0x72, 0x71]);
    bytes.extend((0x41..=0x44).rev());
    bytes.extend((0x51..=0x54).rev());
    bytes.extend((0x21..=0x28).rev());
    bytes.push(1);
    bytes.extend(0x11..=0x20);
    bytes.extend((0x61..=0x64).rev());
    bytes.extend((0x31..=0x38).rev());
    bytes.extend([2, 0]);
    bytes.extend(
        [
            [0, 0, 0, 0, 0, 0, 0, 5],
            [0; 8],
            [0, 0, 0, 0, 0, 0, 0, 4],
            [0; 8],
        ]
        .concat(),
    );
    bytes
}

#[test]
fn a_record_by_hand() {
    let (mut out, list) = ([7; 150], [5, 0, 4, 0]);
    let told = write_record(0xa1b2_c3d4, &replacement(), &list, &mut out);
    assert_eq!(told, Told::new(0, &[141]));
    assert_eq!(out[..141], packed());
    assert_eq!(out[141..], [7; 9]);
    assert_eq!(
        write_record(0, &replacement(), &list, &mut [0; 140]),
        Told::new(21, &[141])
    );
}

#[test]
fn parts_that_do_not_apply_are_zero() {
    let asked = Asked {
        scope: 0,
        coverage: 0,
        child: 0,
        ..replacement()
    };
    let mut out = [7; 109];
    assert_eq!(write_record(0, &asked, &[], &mut out), Told::new(0, &[109]));
    // Scope, flag and coverage; the set; the parent.
    assert_eq!(out[24..28], [0, 0, 1, 0]);
    assert_eq!(out[28..60], [0; 32]);
    assert_eq!(out[78..95], [0; 17]);
    let renewal = Asked {
        kind: 18,
        given: 0,
        ..replacement()
    };
    let mut out = [7; 45];
    assert_eq!(
        write_record(0, &renewal, &[1], &mut out),
        Told::new(0, &[45])
    );
    assert_eq!(out[40..], [0; 5]);
}

/// What these numbers and so many words are told, into a buffer that holds no lock's record.
fn told(asked: Asked, words: usize) -> (u32, u32, u64) {
    let mut out = [7; 40];
    let told = write_record(0, &asked, &vec![0; words], &mut out);
    if told.number != 0 {
        assert_eq!(out, [7; 40]);
    }
    (told.number, told.count, told.values[0])
}

#[test]
fn numbers_that_mean_no_operation() {
    for kind in [0, 2, 15, 24, 272, 65_535] {
        let asked = Asked {
            kind,
            scope: 3,
            ..replacement()
        };
        assert_eq!(told(asked, 131), (18, 1, 0));
    }
    let wrong: [fn(&mut Asked); 4] = [
        |asked| asked.scope = 3,
        |asked| asked.exclusive = 2,
        |asked| asked.coverage = 255,
        |asked| asked.child = 2,
    ];
    for change in wrong {
        let mut asked = replacement();
        change(&mut asked);
        assert_eq!(told(asked, 131), (19, 1, 0));
        // The operations without a lock don't read it.
        asked.kind = 19;
        assert_eq!(told(asked, 131), (0, 1, 24));
    }
    let mut renewal = replacement();
    (renewal.kind, renewal.given) = (18, 2);
    assert_eq!(told(renewal, 0), (19, 1, 0));
}

#[test]
fn the_order_of_the_list_s_refusals() {
    for (words, due) in [
        (1, (14, 0, 0)),
        (129, (14, 0, 0)),
        (131, (14, 0, 0)),
        (130, (29, 0, 0)),
        (128, (21, 1, 1133)),
        (0, (21, 1, 109)),
    ] {
        assert_eq!(told(replacement(), words), due);
    }
    let mut renewal = replacement();
    (renewal.kind, renewal.given) = (18, 1);
    assert_eq!(told(renewal, 1), (21, 1, 45));
}

/// Why no record holds a list.
fn unwritable(list: &[u64]) -> Told {
    Told::new(if list.len() % 2 == 1 { 14 } else { 29 }, &[])
}

/// Numbers and back, for every kind; the record is what the operation's own writer gives.
#[test]
fn numbers_and_back() {
    let mut rng = Rng::new(12);
    let mut written = [0; 8];
    for _ in 0..400 {
        let case = Case::of(&mut rng, Profile::Small);
        let operation = generate::operation(&mut rng, &case);
        let Some((asked, list)) = Asked::of(&operation) else {
            continue;
        };
        assert_eq!(asked.operation(&list), Ok(operation.clone()));
        let mut out = [0; 1133];
        let told = write_record(3, &asked, &list, &mut out);
        match write_feed(&operation, 3) {
            None => assert_eq!(told, unwritable(&list)),
            Some(record) => {
                assert_eq!(told, Told::new(0, &[record.len() as u64]));
                assert_eq!(out[..record.len()], record);
                assert_eq!(read_feed(&record, 0).unwrap().operation, operation);
                written[usize::from(asked.kind) - 16] += 1;
            }
        }
    }
    assert!(written.iter().all(|count| *count > 5), "{written:?}");
}

/// Performs into outputs of these lengths.
fn performed(
    image: &[u8],
    (asked, list): &(Asked, Vec<u64>),
    lengths: [usize; 4],
) -> (Applied, [Vec<u8>; 4]) {
    let mut outputs = lengths.map(|length| vec![7; length]);
    let buffers = outputs.each_mut().map(Vec::as_mut_slice);
    (perform(image, asked, list, buffers), outputs)
}

/// What `perform` leaves is what its record leaves, and each output that is too short is told.
#[test]
fn performed_or_applied() {
    let mut rng = Rng::new(21);
    for _ in 0..200 {
        let case = Case::of(&mut rng, Profile::Small);
        let image = write_image(&case.state, u32::MAX).unwrap();
        let Some(operation) = Asked::of(&generate::operation(&mut rng, &case)) else {
            continue;
        };
        let ample = [20_000, 6_000, 2_100, 1_133];
        let (own, [next, removed, expired, sent]) = performed(&image, &operation, ample);
        if own.part == 1 {
            assert_eq!((own.told, own.sequence), (unwritable(&operation.1), 0));
            continue;
        }
        let size = own.place as usize;
        assert_eq!((own.part, own.sequence), (2, u32::MAX));
        let mut theirs = [20_000, 6_000, 2_100].map(|length| vec![7; length]);
        let [a, b, c] = &mut theirs;
        assert_eq!(apply(&image, &sent[..size], 0, a, b, c), own);
        assert_eq!(theirs, [next, removed, expired]);
        each_one_short(&image, &operation, &own);
    }
}

fn each_one_short(image: &[u8], operation: &(Asked, Vec<u64>), own: &Applied) {
    let needed = [own.written, own.gone * 91, own.lapsed * 16, own.place];
    let short = Applied {
        told: Told::new(21, &needed),
        part: 3,
        sequence: own.sequence,
        ..Applied::default()
    };
    for which in (0..4).filter(|which| needed[*which] > 0) {
        let mut room = needed.map(|bytes| bytes as usize);
        room[which] -= 1;
        let (told, outputs) = performed(image, operation, room);
        assert_eq!(told, short);
        assert_eq!(outputs, room.map(|length| vec![7; length]));
    }
}

#[test]
fn an_image_is_refused_first() {
    let image = write_image(&State::default(), 0).unwrap();
    let wrong = Asked::default();
    let refused = |image: &[u8], part, told| {
        let due = Applied {
            told,
            part,
            ..Applied::default()
        };
        assert_eq!(
            perform(
                image,
                &wrong,
                &[0; 131],
                [&mut [], &mut [], &mut [], &mut []]
            ),
            due
        );
    };
    refused(&image, 1, Told::new(18, &[0]));
    refused(&image[1..], 0, Told::new(18, &[0]));
    refused(&image[..19], 0, Told::new(17, &[0]));
}
