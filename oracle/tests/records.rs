// SPDX-License-Identifier: Apache-2.0
//! Images, feeds and `replay`: document 01's sample, and the order of the refusals.

use oracle::{
    answer::Refusal,
    boundary::{Followed, Told, follow},
    generate::{Case, Profile, Rng},
    judge::{Event, Spare, feed_step, replay, step_image},
    model::{Active, Coverage, Id, IdList, Lock, Operation, Scope, State},
    wire::{read_feed, read_image, write_feed, write_image, write_records},
};

fn sample() -> Vec<u8> {
    let mut feed = vec![0x16, 0, 0x13, 0, 0, 0, 0, 0];
    feed.extend([1; 16]);
    feed.extend([0x0e, 0, 0x17, 0, 2, 0, 0, 0]);
    feed.extend([0; 8]);
    feed.extend([0x0e, 0, 0x17, 0, 1, 0, 0, 0]);
    feed.extend([0; 8]);
    feed
}

#[test]
fn the_sample_feed() {
    assert_eq!(replay(&sample()), "0 3 0 0 0\n2 16 0 0 0\n1 0 0 0 0\n");
}

#[test]
fn replay_at_its_edges() {
    assert_eq!(replay(&[]), "");
    assert_eq!(replay(&vec![0; 65_537]), "long\n");
    assert_eq!(replay(&vec![0; 65_536]), "bad 18 0\n");
    let mut torn = sample();
    torn.pop();
    assert_eq!(replay(&torn), "0 3 0 0 0\n2 16 0 0 0\nbad 17 40\n");
}

/// The sample as one chunk, by hand: two of three records are in turn.
#[test]
fn the_sample_followed_whole() {
    let (feed, image) = (sample(), write_image(&State::default(), 0).unwrap());
    let after = write_image(&State::default(), 2).unwrap();
    let whole = Followed {
        told: Told::default(),
        part: 2,
        expected: 2,
        place: 56,
        read: 3,
        applied: 2,
        written: 20,
    };
    let mut next = [7; 21];
    assert_eq!(follow(&image, &feed, &mut next), whole);
    assert_eq!(next.to_vec(), [after, vec![7]].concat());

    // Without its last byte: what came before stays.
    let torn = Followed {
        told: Told::new(17, &[40]),
        part: 1,
        expected: 1,
        place: 40,
        read: 2,
        applied: 1,
        written: 20,
    };
    assert_eq!(follow(&image, &feed[..55], &mut next), torn);
    assert_eq!(next[12], 1);

    let refused = |number, value, part| Followed {
        told: Told::new(number, &[value]),
        part,
        ..Followed::default()
    };
    assert_eq!(follow(&image, &feed, &mut [0; 19]), refused(21, 20, 3));
    assert_eq!(follow(&[], &feed, &mut next), refused(17, 0, 0));
}

/// One sound state with everything an image can hold.
fn rich() -> (State, Vec<u8>) {
    let mut rng = Rng::new(3);
    loop {
        let state = Case::of(&mut rng, Profile::Small).state;
        let child = state.active.iter().any(|a| a.parent.is_some());
        if child && state.active.len() > 3 && state.defunct.len() > 2 {
            let image = write_image(&state, 77).unwrap();
            return (state, image);
        }
    }
}

fn with(image: &[u8], at: usize, byte: u8) -> Result<(State, u32), Refusal> {
    let mut image = image.to_vec();
    image[at] = byte;
    read_image(&image)
}

#[test]
fn an_image_comes_back() {
    let (state, image) = rich();
    assert_eq!(read_image(&image), Ok((state.clone(), 77)));
    assert_eq!(
        image.len(),
        20 + 91 * state.active.len() + 104 * state.defunct.len()
    );
    let empty = write_image(&State::default(), 0).unwrap();
    assert_eq!(empty[..4], [18, 0, 1, 0]);
    assert_eq!(empty.len(), 20);
}

#[test]
fn every_cut_is_torn_where_its_record_begins() {
    let (state, image) = rich();
    let mut starts = vec![0];
    starts.extend((0..state.active.len()).map(|n| 20 + 91 * n));
    starts.extend((0..state.defunct.len()).map(|n| 20 + 91 * state.active.len() + 104 * n));
    for length in 0..image.len() {
        let start = starts.iter().rev().find(|start| **start <= length).unwrap();
        assert_eq!(
            read_image(&image[..length]),
            Err(Refusal::Torn(*start)),
            "{length}"
        );
    }
}

#[test]
fn every_byte_change_gets_one_answer_and_accepted_ones_write_back() {
    let (_, image) = rich();
    for at in 0..image.len() {
        for change in 1..=255 {
            let mut bytes = image.clone();
            bytes[at] ^= change;
            if let Ok((state, expected)) = read_image(&bytes) {
                assert_eq!(write_image(&state, expected), Ok(bytes));
            }
        }
    }
}

#[test]
fn refusals_of_records_in_order() {
    let (_, image) = rich();
    assert_eq!(read_image(&[]), Err(Refusal::Torn(0)));
    assert_eq!(read_image(&[0, 0, 9]), Err(Refusal::Torn(0)));
    // A bad kind beats a length that can't be, and that beats missing bytes.
    assert_eq!(read_image(&[0, 0, 9, 0]), Err(Refusal::BadKind(0)));
    assert_eq!(read_image(&[0, 0, 1, 0]), Err(Refusal::BadField(0)));
    assert_eq!(read_image(&[18, 0, 1, 0]), Err(Refusal::Torn(0)));
    // A list shorter than HEAD says is 18 where the next record would start.
    let actives = image[16];
    let after = 20 + 91 * usize::from(actives);
    assert_eq!(with(&image, 16, actives + 1), Err(Refusal::BadKind(after)));
    assert_eq!(
        with(&image, 16, actives - 1),
        Err(Refusal::BadKind(after - 91))
    );
    assert_eq!(with(&image, 16, 65), Err(Refusal::BadField(0)));
    assert_eq!(with(&image, 17, 1), Err(Refusal::BadField(0)));
    assert_eq!(with(&image, 18, 129), Err(Refusal::BadField(0)));
    let defuncts = image[18];
    assert_eq!(
        with(&image, 18, defuncts + 1),
        Err(Refusal::Torn(image.len()))
    );
    assert_eq!(
        with(&image, 18, defuncts - 1),
        Err(Refusal::BadOrder(image.len() - 104))
    );
    // Flags and kinds of the first active lock.
    for at in [20 + 20, 20 + 22, 20 + 23, 20 + 74] {
        assert_eq!(with(&image, at, 3), Err(Refusal::BadField(20)), "{at}");
    }
}

#[test]
fn order_of_ids_comes_after_the_record_and_before_the_rules() {
    let lock = |id, scope| Active {
        lock: Lock {
            id: Id::from_number(id),
            scope,
            exclusive: true,
            coverage: Coverage::of(&[]),
            subject: 1,
            principal: 0,
            metadata: 0,
        },
        expires: 0,
        parent: None,
    };
    // Two locks with one scope and one id: the second record is out of order.
    let state = State {
        active: vec![lock(4, Scope::Ecu(1)), lock(4, Scope::Ecu(1))],
        ..State::default()
    };
    let image = write_records(&state, 0);
    assert_eq!(read_image(&image), Err(Refusal::BadOrder(20 + 91)));
    assert_eq!(
        with(&image, 20 + 91 + 22, 2),
        Err(Refusal::BadField(20 + 91))
    );
    // In order, but one scope twice; extra bytes come before that.
    let state = State {
        active: vec![lock(4, Scope::Ecu(1)), lock(5, Scope::Ecu(1))],
        ..State::default()
    };
    let mut image = write_records(&state, 0);
    assert_eq!(read_image(&image), Err(Refusal::UnsoundState(2)));
    image.push(0);
    assert_eq!(read_image(&image), Err(Refusal::BadOrder(20 + 182)));
}

#[test]
fn feed_records_with_lists() {
    let lock = Active {
        lock: Lock {
            id: Id::default(),
            scope: Scope::Vehicle,
            exclusive: false,
            coverage: Coverage::Vehicle,
            subject: 0,
            principal: 0,
            metadata: 0,
        },
        expires: 0,
        parent: None,
    };
    let of = |count| Operation::InsertVehicle {
        lock,
        children: IdList::of(&vec![Id([7; 16]); count]),
    };
    let record = write_feed(&of(64), 5).unwrap();
    assert_eq!(record.len(), 2 + 95 + 16 * 64);
    let read = read_feed(&record, 0).unwrap();
    assert_eq!(
        (read.sequence, read.operation, read.next),
        (5, of(64), record.len())
    );
    assert_eq!(write_feed(&of(65), 5), None);
    // 65 ids: a length that can't be. A count that isn't the number of ids: a wrong field.
    let mut long = record.clone();
    long[..2].copy_from_slice(&(95u16 + 16 * 65).to_le_bytes());
    assert_eq!(read_feed(&long, 0), Err(Refusal::BadField(0)));
    let mut count = write_feed(&of(2), 5).unwrap();
    count[95] = 1;
    assert_eq!(read_feed(&count, 0), Err(Refusal::BadField(0)));
    // A wrong field in a record with missing bytes is 17.
    count.pop();
    assert_eq!(read_feed(&count, 0), Err(Refusal::Torn(0)));
}

#[test]
fn distance_and_expected_number() {
    let record = |sequence| write_feed(&Operation::ExpireDefunct { now: 0 }, sequence).unwrap();
    let step = |expected, sequence| {
        let spare = Spare {
            state: State::default(),
            expected,
        };
        let step = feed_step(&spare, &record(sequence), 0);
        (step.event.number(), step.spare.expected, step.next)
    };
    assert_eq!(step(7, 7), (0, 8, 16));
    assert_eq!(step(u32::MAX, u32::MAX), (0, 0, 16));
    assert_eq!(step(7, 8), (16, 7, 16));
    assert_eq!(step(7, 6), (15, 7, 16));
    assert_eq!(step(7, 7 + 0x7fff_ffff), (16, 7, 16));
    assert_eq!(step(7, 7 + 0x8000_0000), (15, 7, 16));
    assert_eq!(step(u32::MAX, 0), (16, u32::MAX, 16));
    assert_eq!(step(0, u32::MAX), (15, 0, 16));
    // A place at or past the end is 17 there; a record out of turn with a wrong field is 19.
    let spare = Spare::default();
    assert_eq!(
        feed_step(&spare, &record(0), 16).event,
        Event::Refused(Refusal::Torn(16))
    );
    assert_eq!(
        feed_step(&spare, &record(0), 99).event,
        Event::Refused(Refusal::Torn(99))
    );
    let renew = Operation::Renew {
        id: Id::default(),
        expires: 0,
        now: 0,
        metadata: None,
    };
    let mut wrong = write_feed(&renew, 9).unwrap();
    wrong[40] = 2;
    assert_eq!(
        feed_step(&spare, &wrong, 0).event,
        Event::Refused(Refusal::BadField(0))
    );
}

#[test]
fn a_step_on_an_image() {
    let (state, image) = rich();
    let gone = state.active[0];
    let record = write_feed(&Operation::Delete { id: gone.lock.id }, 77).unwrap();
    let (step, next) = step_image(&image, &record, 0).unwrap();
    let Event::Applied { told, removed, .. } = step.event else {
        panic!("in turn")
    };
    assert_eq!((told.flat().number, removed.last()), (0, Some(&gone)));
    assert_eq!(read_image(&next), Ok((step.spare.state, 78)));
    let late = write_feed(&Operation::Delete { id: gone.lock.id }, 76).unwrap();
    assert_eq!(step_image(&image, &late, 0).unwrap().1, image);
    assert_eq!(
        step_image(&image[1..], &record, 0).unwrap_err().number(),
        18
    );
}
