// SPDX-License-Identifier: Apache-2.0
//! Feed records through the safe wrapper: document 01's samples and bench rows, refusals with
//! their data, and what a spare keeps.

use cablegorse::{
    Active, Coverage, Defunct, Done, Lock, LockId, Operation, Reason, Refusal, Replica,
    ResponseClass, Run, Scope,
    library::{self, ChunkPart, Part, Told},
    response_class,
};

fn id(number: u128) -> LockId {
    LockId::from_u128(number)
}

fn lock(number: u128, scope: Scope, ecus: &[u8], subject: u16) -> Active {
    Active {
        lock: Lock {
            id: id(number),
            scope,
            exclusive: false,
            coverage: Coverage::of(ecus),
            subject,
            principal: 0,
            metadata: 0,
        },
        expires: 100,
        parent: None,
    }
}

fn vehicle(number: u128, subject: u16) -> Active {
    let mut vehicle = lock(number, Scope::Vehicle, &[], subject);
    vehicle.lock.coverage = Coverage::Vehicle;
    vehicle
}

fn perform(spare: &mut Replica, operation: Operation) -> cablegorse::Step {
    spare.perform(&operation).expect("few ids").1
}

fn insert(spare: &mut Replica, lock: Active) -> Result<Done, Refusal> {
    perform(spare, Operation::InsertActive { lock }).answer
}

/// Document 01's bench sheet begins so.
fn a() -> Replica {
    let mut spare = Replica::empty();
    assert_eq!(
        insert(&mut spare, lock(1, Scope::Ecu(5), &[5], 1)),
        Ok(Done::Done)
    );
    assert_eq!((spare.revision(), spare.expected()), (1, 1));
    spare
}

#[test]
fn the_sample_feed() {
    let mut feed = vec![0x16, 0, 0x13, 0, 0, 0, 0, 0];
    feed.extend([1; 16]);
    feed.extend([0x0e, 0, 0x17, 0, 2, 0, 0, 0]);
    feed.extend([0; 8]);
    feed.extend([0x0e, 0, 0x17, 0, 1, 0, 0, 0]);
    feed.extend([0; 8]);
    let mut spare = Replica::empty();
    let mut at = 0;
    let mut lines = Vec::new();
    while at < feed.len() {
        let step = spare.apply(&feed, at);
        lines.push((step.sequence, step.number(), spare.revision()));
        at = step.place;
    }
    assert_eq!(lines, [(0, 3, 0), (2, 16, 0), (1, 0, 0)]);
    assert_eq!(spare.expected(), 2);
    // Past the end: 17 there, and the place stays.
    let step = spare.apply(&feed, at);
    assert_eq!(step.answer, Err(Refusal::Torn { offset: at }));
    assert!(step.is_bad() && step.place == at);
}

#[test]
fn insertion_and_conflicts() {
    let mut spare = a();
    let group = |ecus: &[u8]| lock(2, Scope::FunctionalGroup(3), ecus, 2);
    assert_eq!(
        insert(&mut spare, group(&[5, 6])),
        Err(Refusal::CoverageConflict {
            id: id(1),
            ecu: Some(5)
        })
    );
    // Refused, but the number moved on and the revision didn't.
    assert_eq!((spare.revision(), spare.expected()), (1, 2));
    assert_eq!(insert(&mut spare, group(&[6])), Ok(Done::Done));
    assert_eq!(
        insert(&mut spare, lock(2, Scope::Ecu(9), &[9], 1)),
        Err(Refusal::DuplicateId { id: id(2) })
    );
    assert_eq!(
        insert(&mut spare, lock(3, Scope::Ecu(5), &[], 1)),
        Err(Refusal::DuplicateScope)
    );
    let mut child = lock(4, Scope::Ecu(7), &[7], 1);
    child.parent = Some(id(1));
    assert_eq!(
        insert(&mut spare, child),
        Err(Refusal::ParentNotVehicle { parent: id(1) })
    );
    assert_eq!(insert(&mut spare, vehicle(8, 3)), Ok(Done::Done));
    child.parent = Some(id(8));
    assert_eq!(
        insert(&mut spare, child),
        Err(Refusal::Invariant {
            reason: Reason::Owner {
                child: id(4),
                parent: id(8)
            }
        })
    );
    // The vehicle's lock is in everybody's way, at their lowest ECU if they have one.
    for (ecus, ecu) in [(&[][..], None), (&[200, 9][..], Some(9))] {
        assert_eq!(
            insert(&mut spare, lock(5, Scope::Ecu(9), ecus, 1)),
            Err(Refusal::CoverageConflict { id: id(8), ecu })
        );
    }
    assert_eq!(spare.active_count(), 3);
    assert_eq!(spare.vehicle_lock_owner_sub(), Some(3));
}

#[test]
fn renewal_and_expiration() {
    let renew = |now, expires| Operation::Renew {
        id: id(1),
        expires,
        now,
        metadata: Some(7),
    };
    let begin = |now| Operation::BeginExpiration { id: id(1), now };
    let mut spare = a();
    assert_eq!(
        perform(&mut spare, renew(100, 200)).answer,
        Err(Refusal::LockExpired)
    );
    assert_eq!(
        perform(&mut spare, renew(99, 100)).answer,
        Err(Refusal::RenewalNotExtension)
    );
    assert_eq!(
        perform(&mut spare, begin(99)).answer,
        Ok(Done::NotDue { expires: 100 })
    );
    assert_eq!(perform(&mut spare, renew(99, 101)).answer, Ok(Done::Done));
    assert_eq!(spare.active_by_id(id(1)).unwrap().lock.metadata, 7);
    let step = perform(&mut spare, begin(101));
    assert_eq!((step.answer, step.removed.len()), (Ok(Done::Done), 1));
    assert_eq!(perform(&mut spare, begin(101)).answer, Ok(Done::Stale));
}

#[test]
fn replacement_and_defunct_locks() {
    let mut spare = a();
    let new = lock(2, Scope::Ecu(5), &[5], 2);
    let step = perform(
        &mut spare,
        Operation::CommitReplacement {
            roots: vec![id(1)],
            lock: new,
            broken_by: 9,
            broken_at: 50,
        },
    );
    assert_eq!(step.answer, Ok(Done::Done));
    assert_eq!(step.removed, [lock(1, Scope::Ecu(5), &[5], 1)]);
    let broken = spare.defunct_by_id(id(1)).unwrap();
    assert_eq!((broken.replacement, broken.holder), (id(2), 2));
    assert_eq!((broken.broken_by, broken.broken_at), (9, 50));
    let holder = spare.current_holder(&broken);
    assert_eq!((holder.subject, holder.links), (2, 0));
    assert_eq!(spare.defunct_at(0), Some(broken));
    assert_eq!(spare.defuncts().collect::<Vec<_>>(), [broken]);
    assert_eq!(
        spare.uncovered_defunct(1, Scope::Ecu(6), Coverage::of(&[5, 6]), 0),
        None
    );
    assert_eq!(
        spare.uncovered_defunct(1, Scope::Ecu(5), Coverage::of(&[]), 0),
        None
    );

    // Dropped directly: the wrong scope, another subject, then its owner. The number stays.
    let before = spare.expected();
    assert_eq!(spare.delete_defunct(id(1), Scope::Ecu(6), 1), Ok(false));
    assert_eq!(
        spare.delete_defunct(id(1), Scope::Ecu(5), 2),
        Err(Refusal::Forbidden)
    );
    let mut other = spare.clone();
    assert_eq!(spare.delete_defunct(id(1), Scope::Ecu(5), 1), Ok(true));
    assert_eq!((spare.expected(), spare.defunct_count()), (before, 0));

    // And through the feed.
    let step = perform(&mut other, Operation::AcknowledgeDefunct { id: id(1) });
    assert_eq!(step.answer, Ok(Done::Done));
    let step = perform(&mut other, Operation::AcknowledgeDefunct { id: id(1) });
    assert_eq!(step.answer, Ok(Done::Absent));
    assert_eq!(other.revision(), spare.revision());
}

/// 02, C-20: who holds now is the same after an entry on the way was cleared, asked with the entry
/// looked up again. A copy from before names an entry that is gone.
#[test]
fn an_entry_is_looked_up_again() {
    let mut spare = a();
    for (old, new) in [(1, 2), (2, 3)] {
        let replacement = Operation::CommitReplacement {
            roots: vec![id(old)],
            lock: lock(new, Scope::Ecu(5), &[5], new as u16),
            broken_by: 0,
            broken_at: 0,
        };
        assert_eq!(perform(&mut spare, replacement).answer, Ok(Done::Done));
    }
    let told = |spare: &Replica, broken: &Defunct| {
        let holder = spare.current_holder(broken);
        (holder.subject, holder.links)
    };
    let copy = spare.defunct_by_id(id(1)).unwrap();
    assert_eq!(told(&spare, &copy), (3, 1));
    let clear = Operation::AcknowledgeDefunct { id: id(2) };
    assert_eq!(perform(&mut spare, clear).answer, Ok(Done::Done));
    let again = spare.defunct_by_id(id(1)).unwrap();
    assert_eq!(told(&spare, &again), (3, 0));
    assert_eq!(told(&spare, &copy), (2, 0));
}

#[test]
fn expired_defunct_locks_are_named() {
    let mut spare = a();
    let roots = vec![id(1)];
    let lock = lock(2, Scope::Ecu(5), &[5], 2);
    perform(
        &mut spare,
        Operation::CommitReplacement {
            roots,
            lock,
            broken_by: 0,
            broken_at: 0,
        },
    );
    let step = perform(&mut spare, Operation::ExpireDefunct { now: 99 });
    assert_eq!((step.answer, step.expired), (Ok(Done::Done), vec![]));
    let step = perform(&mut spare, Operation::ExpireDefunct { now: 100 });
    assert_eq!((step.answer, step.expired), (Ok(Done::Done), vec![id(1)]));
}

#[test]
fn the_tree_goes_children_first() {
    let mut spare = Replica::empty();
    let ecu = lock(3, Scope::Ecu(5), &[5], 1);
    let group = lock(1, Scope::FunctionalGroup(3), &[5, 6], 1);
    insert(&mut spare, ecu).unwrap();
    insert(&mut spare, group).unwrap();
    assert_eq!(spare.covered_narrow_locks(&group), [id(3)]);
    assert_eq!(spare.covering_functional_group(1, 6), Some(group));
    let step = perform(
        &mut spare,
        Operation::InsertVehicle {
            lock: vehicle(2, 1),
            children: vec![id(1), id(1)],
        },
    );
    assert_eq!(step.answer, Ok(Done::Done));
    assert!(spare.has_non_vehicle_locks());
    let step = perform(
        &mut spare,
        Operation::CommitReplacement {
            roots: vec![id(2), id(1)],
            lock: lock(4, Scope::Ecu(5), &[5], 1),
            broken_by: 0,
            broken_at: 0,
        },
    );
    let gone: Vec<u128> = step.removed.iter().map(|a| a.lock.id.as_u128()).collect();
    assert_eq!((step.answer, gone), (Ok(Done::Done), vec![3, 1, 2]));
}

#[test]
fn a_runtime_update_waits_for_locks() {
    let mut spare = Replica::empty();
    assert_eq!(spare.prepare_runtime_update(4), Ok(5));
    assert_eq!(spare.prepare_runtime_update(u64::MAX), Ok(u64::MAX));
    insert(&mut spare, lock(1, Scope::Ecu(5), &[5], 1)).unwrap();
    assert_eq!(spare.prepare_runtime_update(4), Err(Refusal::EcuLocksHeld));
    insert(&mut spare, lock(2, Scope::FunctionalGroup(1), &[6], 1)).unwrap();
    assert_eq!(
        spare.prepare_runtime_update(4),
        Err(Refusal::FunctionalGroupLocksHeld)
    );
}

#[test]
fn tester_present() {
    use cablegorse::TesterPresent::{Ecu, Functional};
    let mut spare = a();
    assert_eq!(spare.tester_present_for(1, Scope::Ecu(5)), Some(Ecu(5)));
    assert_eq!(spare.tester_present_for(1, Scope::Vehicle), None);
    assert!(spare.tester_present_needed(Ecu(5)) && !spare.tester_present_needed(Ecu(6)));
    insert(&mut spare, lock(2, Scope::FunctionalGroup(3), &[5], 1)).unwrap();
    assert_eq!(spare.tester_present_for(1, Scope::Ecu(5)), None);
    assert!(!spare.tester_present_needed(Ecu(5)) && spare.tester_present_needed(Functional(3)));
}

#[test]
fn out_of_turn_is_never_applied() {
    let mut primary = a();
    let (record, _) = primary
        .perform(&Operation::Delete { id: id(1) })
        .expect("few ids");
    let mut spare = Replica::empty();
    let image = spare.image().to_vec();
    let step = spare.apply(&record, 0);
    assert_eq!(step.answer, Err(Refusal::Ahead { expected: 0 }));
    assert_eq!((step.applied, step.sequence, step.place), (false, 1, 24));
    assert_eq!(spare.image(), image);
    let step = primary.apply(&record, 0);
    assert_eq!(step.answer, Err(Refusal::Repeat { expected: 2 }));
}

/// Five records of a primary, and the primary after them: the fourth is refused by 7.
fn five() -> (Vec<Vec<u8>>, Replica) {
    let mut primary = Replica::empty();
    let operations = [
        Operation::InsertActive {
            lock: lock(1, Scope::Ecu(5), &[5], 1),
        },
        Operation::Delete { id: id(1) },
        Operation::InsertActive {
            lock: lock(2, Scope::Ecu(5), &[5], 2),
        },
        Operation::InsertActive {
            lock: lock(3, Scope::FunctionalGroup(3), &[5, 6], 1),
        },
        Operation::CommitReplacement {
            roots: vec![id(2)],
            lock: lock(4, Scope::Ecu(5), &[5], 3),
            broken_by: 9,
            broken_at: 50,
        },
    ];
    let performed = operations.map(|operation| primary.perform(&operation).expect("few ids"));
    let numbers: Vec<u32> = performed.iter().map(|(_, step)| step.number()).collect();
    assert_eq!(numbers, [0, 0, 0, 7, 0]);
    (performed.map(|(record, _)| record).to_vec(), primary)
}

/// What `follow` is: `apply` from record to record. Its run and the replica after it.
fn one_by_one(chunk: &[u8]) -> (Run, Replica) {
    let mut spare = Replica::empty();
    let mut run = Run {
        read: 0,
        applied: 0,
        place: 0,
        stop: None,
    };
    while run.place < chunk.len() {
        let step = spare.apply(chunk, run.place);
        if step.is_bad() {
            run.stop = step.answer.err();
            break;
        }
        run.read += 1;
        run.applied += usize::from(step.applied);
        run.place = step.place;
    }
    (run, spare)
}

/// Follows a chunk from the empty state on, and holds it to `apply`.
fn followed(chunk: &[u8]) -> (Run, Replica) {
    let mut spare = Replica::empty();
    let run = spare.follow(chunk);
    assert_eq!((run, spare.clone()), one_by_one(chunk));
    (run, spare)
}

#[test]
fn a_chunk_is_its_records_one_by_one() {
    let (records, primary) = five();
    let chunk = records.concat();
    let (run, spare) = followed(&chunk);
    // The refused one is applied: the number moved on.
    assert_eq!((run.read, run.applied, run.passed_over()), (5, 5, 0));
    assert_eq!((run.place, run.stop), (chunk.len(), None));
    assert_eq!(spare, primary);
    assert_eq!(spare.expected(), 5);
}

#[test]
fn an_empty_chunk_is_at_its_end() {
    let mut spare = a();
    let run = spare.follow(&[]);
    assert_eq!((run.read, run.applied, run.place), (0, 0, 0));
    assert_eq!((run.stop, spare), (None, a()));
}

/// Every cut: 17 at the record that is cut, what came before is kept, and the rest of it goes
/// before the bytes that come next.
#[test]
fn a_cut_chunk_goes_on_with_the_next() {
    let (records, primary) = five();
    let chunk = records.concat();
    for cut in 0..=chunk.len() {
        let (first, second) = chunk.split_at(cut);
        let (run, mut spare) = followed(first);
        let whole = run.place == cut;
        let torn = Refusal::Torn { offset: run.place };
        assert_eq!(run.stop, (!whole).then_some(torn), "cut at {cut}");
        assert_eq!(spare.expected() as usize, run.applied);
        let mut arrived = first[run.place..].to_vec();
        arrived.extend(second);
        assert_eq!(spare.follow(&arrived).stop, None);
        assert_eq!(spare, primary, "cut at {cut}");
    }
}

#[test]
fn repeats_and_gaps_are_passed_over() {
    let (records, primary) = five();
    let send = |places: &[usize]| -> Vec<u8> {
        let sent = places.iter().map(|place| records[*place].clone());
        sent.collect::<Vec<_>>().concat()
    };
    // 3 comes early, 1 twice, and 2 not at all.
    let (run, mut spare) = followed(&send(&[0, 3, 1, 1, 4]));
    assert_eq!((run.read, run.applied, run.passed_over()), (5, 2, 3));
    assert_eq!((run.stop, spare.expected()), (None, 2));
    let image = spare.image().to_vec();
    // Nothing that is due: every byte stays.
    let run = spare.follow(&send(&[0, 1, 3, 4]));
    assert_eq!((run.read, run.applied, run.stop), (4, 0, None));
    assert_eq!(spare.image(), image);
    assert_eq!(spare.follow(&send(&[0, 1, 2, 3, 4])).applied, 3);
    assert_eq!(spare, primary);
}

#[test]
fn garbage_stops_a_chunk() {
    let (records, _) = five();
    let before = records[..2].concat();
    let at = before.len();
    let bad_kind = [6, 0, 24, 0, 2, 0, 0, 0];
    let mut bad_field = records[2].clone();
    bad_field[8 + 16] = 3; // its scope's kind
    for (garbage, stop) in [
        (&[0xff; 40][..], Refusal::BadKind { offset: at }),
        (&bad_kind, Refusal::BadKind { offset: at }),
        (&bad_field, Refusal::BadField { offset: at }),
    ] {
        // What comes after it isn't looked at.
        let chunk = [&before, garbage, &records[2]].concat();
        let (run, spare) = followed(&chunk);
        assert_eq!((run.read, run.applied, run.place), (2, 2, at));
        assert_eq!((run.stop, spare.expected()), (Some(stop), 2));
    }
}

#[test]
fn images_are_tested() {
    let image = a().image().to_vec();
    assert_eq!(Replica::from_image(&image).unwrap().image(), image);
    assert_eq!(
        Replica::from_image(&image[..40]).unwrap_err(),
        Refusal::Torn { offset: 20 }
    );
    assert_eq!(
        Replica::from_image(&[]).unwrap_err(),
        Refusal::Torn { offset: 0 }
    );
    let with = |at: usize, byte: u8| {
        let mut image = image.clone();
        image[at] = byte;
        Replica::from_image(&image).map(|_| ())
    };
    assert_eq!(with(2, 9), Err(Refusal::BadKind { offset: 0 }));
    assert_eq!(with(20 + 4 + 16, 3), Err(Refusal::BadField { offset: 20 }));
    // A parent that isn't active breaks rule 3.
    let parent = 20 + 4 + 62 + 8;
    assert_eq!(with(parent, 1), Err(Refusal::UnsoundState { rule: 3 }));
    let mut long = image.clone();
    long.push(0);
    assert_eq!(
        Replica::from_image(&long).unwrap_err(),
        Refusal::BadOrder { offset: 111 }
    );
}

#[test]
fn the_number_wraps() {
    let mut image = Replica::empty().image().to_vec();
    image[12..16].copy_from_slice(&u32::MAX.to_le_bytes());
    let mut spare = Replica::from_image(&image).unwrap();
    assert_eq!(spare.expected(), u32::MAX);
    assert_eq!(
        insert(&mut spare, lock(1, Scope::Ecu(5), &[5], 1)),
        Ok(Done::Done)
    );
    assert_eq!(spare.expected(), 0);
}

#[test]
fn at_the_last_revision_entries_go_all_the_same() {
    let mut spare = a();
    perform(
        &mut spare,
        Operation::CommitReplacement {
            roots: vec![id(1)],
            lock: lock(2, Scope::Ecu(5), &[5], 2),
            broken_by: 0,
            broken_at: 0,
        },
    );
    let mut image = spare.image().to_vec();
    image[4..12].copy_from_slice(&u64::MAX.to_le_bytes());
    let mut spare = Replica::from_image(&image).unwrap();
    let mut other = spare.clone();
    let refused = perform(&mut spare, Operation::AcknowledgeDefunct { id: id(1) });
    assert_eq!(refused.answer, Err(Refusal::RevisionOverflow));
    assert_eq!((spare.defunct_count(), spare.revision()), (0, u64::MAX));
    assert_eq!(
        other.delete_defunct(id(1), Scope::Ecu(5), 1),
        Err(Refusal::RevisionOverflow)
    );
    assert_eq!((other.defunct_count(), other.revision()), (0, u64::MAX));
}

#[test]
fn a_short_buffer_is_told_and_left() {
    let spare = a();
    let record = Operation::Delete { id: id(1) }.record(1).unwrap();
    for (next, removed) in [(19, 91), (20, 90), (0, 0)] {
        let (mut next, mut removed) = (vec![7; next], vec![7; removed]);
        let applied = library::apply(spare.image(), &record, 0, &mut next, &mut removed, &mut []);
        assert_eq!((applied.part, applied.told.number), (Part::ShortOutput, 21));
        assert_eq!(applied.told.values, [20, 91, 0, 0, 0]);
        assert!(next.iter().chain(&removed).all(|byte| *byte == 7));
    }
}

#[test]
fn a_chunk_s_image_has_room_or_not() {
    let (records, primary) = five();
    let (chunk, needed) = (records.concat(), primary.image().len());
    let empty = Replica::empty();
    for length in 0..needed {
        let mut next = vec![7; length];
        let followed = library::follow(empty.image(), &chunk, &mut next);
        assert_eq!(followed.told.number, 21);
        assert_eq!(followed.told.values, [needed as u64, 0, 0, 0, 0]);
        assert_eq!(followed.part, ChunkPart::ShortOutput);
        let (expected, read) = (followed.expected, followed.read);
        assert_eq!((expected, read, followed.written), (0, 0, 0));
        assert!(next.iter().all(|byte| *byte == 7));
    }
    let mut next = vec![7; needed + 3];
    let followed = library::follow(empty.image(), &chunk, &mut next);
    assert_eq!(followed.part, ChunkPart::Ended);
    assert_eq!((followed.expected, followed.written), (5, needed));
    assert_eq!(next, [primary.image(), &[7; 3]].concat());
    // An image that is none: nothing is read of the chunk.
    let followed = library::follow(&[], &chunk, &mut next);
    assert_eq!(followed.part, ChunkPart::ImageRefused);
    assert_eq!((followed.told.number, followed.read), (17, 0));
    assert_eq!(&next[..needed], primary.image());
}

#[test]
fn response_classes() {
    let class = |number| response_class(number);
    for number in 0..64 {
        let due = match number {
            10 => Some(ResponseClass::BadRequest),
            2 | 6 | 7 | 9 => Some(ResponseClass::Conflict),
            1 | 3 | 4 | 5 | 8 | 11 => Some(ResponseClass::InternalServerError),
            26 => Some(ResponseClass::Forbidden),
            _ => None,
        };
        assert_eq!(class(number), due, "{number}");
    }
    assert_eq!(
        Refusal::RenewalNotExtension.response_class(),
        Some(ResponseClass::BadRequest)
    );
}

/// examples/story.image is what the story's first four records make of an empty state.
#[test]
fn the_story_s_image() {
    let feed = include_bytes!("../../examples/story.feed");
    let mut replica = Replica::empty();
    let mut at = 0;
    while replica.expected() < 4 {
        at = replica.apply(feed, at).place;
    }
    assert!(replica.image() == include_bytes!("../../examples/story.image"));
}

/// Every number has its name and a text for a person, and no two texts are alike.
#[test]
fn refusals_in_words() {
    let text = |number, values: [u64; 5]| {
        let told = Told {
            number,
            count: 5,
            values,
        };
        Refusal::from_told(&told).unwrap().to_string()
    };
    assert_eq!(
        text(7, [0, 1, 1, 6, 0]),
        "7 CoverageConflict: lock 00000000-0000-0000-0000-000000000001 is in the way at ECU 6"
    );
    assert_eq!(
        text(7, [0, 1, 0, 0, 0]),
        "7 CoverageConflict: lock 00000000-0000-0000-0000-000000000001 is in the way, no ECU to name"
    );
    assert_eq!(
        text(12, [8, 0, 0, 0, 0]),
        "12 UnsoundState: rule 8, two subjects' locks overlap"
    );
    assert_eq!(text(16, [41, 0, 0, 0, 0]), "16 Ahead: record 41 is missing");
    assert_eq!(
        text(11, [1, 0, 0, 0, 0]),
        "11 Invariant: reason 1, the lock isn't a vehicle lock without a parent"
    );
    assert_eq!(
        text(28, [0; 5]),
        "28 BoardMismatch: the board is another image's, or has another size"
    );
    assert_eq!(
        text(99, [0; 5]),
        "99 Unknown: a later version of the library has this number"
    );
    let mut said = Vec::new();
    for number in 1..=28 {
        let text = text(number, [3, 0, 1, 0, 2]);
        let (row, words) = text.split_once(": ").expect("a number, a name, and words");
        assert!(
            row.starts_with(&format!("{number} ")) && words.len() > 8,
            "{text}"
        );
        said.push(words.to_owned());
    }
    said.sort();
    said.dedup();
    assert_eq!(said.len(), 28);
}

fn in_words(number: u32, values: [u64; 5]) -> String {
    let told = Told {
        number,
        count: 5,
        values,
    };
    Refusal::from_told(&told).unwrap().to_string()
}

/// 29 has words of its own too.
#[test]
fn too_many_ids_in_words() {
    let said = "29 ListTooLong: a record holds at most 64 ids";
    assert_eq!(in_words(29, [0; 5]), said);
    assert_eq!(in_words(29, [3, 0, 1, 0, 2]), said);
    for number in 1..=28 {
        let other = in_words(number, [3, 0, 1, 0, 2]);
        assert_ne!(
            other.split_once(": ").unwrap().1,
            "a record holds at most 64 ids"
        );
    }
}

#[test]
fn parts_by_number() {
    for number in 0..4 {
        assert_eq!(Part::from_number(number).unwrap().number(), number);
    }
    assert_eq!(Part::from_number(4), None);
    for number in 0..4 {
        assert_eq!(ChunkPart::from_number(number).unwrap().number(), number);
    }
    assert_eq!(ChunkPart::from_number(4), None);
}
