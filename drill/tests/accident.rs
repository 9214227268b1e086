// SPDX-License-Identifier: Apache-2.0
//! The accident: a backup that applied edits as they arrived and not by their sequence drifted
//! silently, and after a takeover two testers wrote to one unit. Here such a backup (in this
//! test alone) and a spare get the same arrivals.

use cablegorse::{Active, Coverage, Done, Lock, LockId, Operation, Refusal, Replica, Scope};
use drill::{
    link::{Link, Weather},
    rng::Rng,
    work,
};

/// A backup that applies in order of arrival: it takes every record for the one that is due.
struct Backup(Replica);

impl Backup {
    fn apply(&mut self, record: &[u8]) {
        let mut record = record.to_vec();
        record[4..8].copy_from_slice(&self.0.expected().to_le_bytes());
        self.0.apply(&record, 0);
    }
}

fn lock(id: u128, subject: u16) -> Active {
    Active {
        lock: Lock {
            id: LockId::from_u128(id),
            scope: Scope::Ecu(5),
            exclusive: true,
            coverage: Coverage::of(&[5]),
            subject,
            principal: 0,
            metadata: 0,
        },
        expires: 1000,
        parent: None,
    }
}

/// Tester 1 has the unit and gives it back; tester 2 takes it. The last two records change
/// places on the way.
#[test]
fn two_testers_on_one_unit() {
    let mut primary = Replica::empty();
    let mut make = |operation: Operation| primary.perform(&operation).unwrap();
    let (first, _) = make(Operation::InsertActive { lock: lock(1, 1) });
    let (back, _) = make(Operation::Delete {
        id: LockId::from_u128(1),
    });
    let (second, step) = make(Operation::InsertActive { lock: lock(2, 2) });
    assert_eq!(step.answer, Ok(Done::Done));

    let (mut backup, mut spare) = (Backup(Replica::empty()), Replica::empty());
    for record in [&first, &second, &back] {
        backup.apply(record);
    }
    for record in [&first, &second, &back] {
        spare.apply(record, 0);
    }
    // The spare says that it misses something, the backup can't know.
    assert_eq!(spare.expected(), 2);
    assert_eq!(
        spare.apply(&[], 0).answer,
        Err(Refusal::Torn { offset: 0 }),
        "nothing more arrived"
    );
    spare.apply(&second, 0);
    assert_eq!(spare.image(), primary.image());

    // Takeover. Tester 2 still writes to unit 5, and tester 3 asks for it.
    let ask = Operation::InsertActive { lock: lock(3, 3) };
    let (_, step) = backup.0.perform(&ask).unwrap();
    assert_eq!(step.answer, Ok(Done::Done), "the accident");
    let (_, step) = spare.perform(&ask).unwrap();
    assert_eq!(step.answer, Err(Refusal::DuplicateScope));
}

/// The locks of a state, without revision and expected number.
fn locks(state: &Replica) -> (Vec<Active>, Vec<cablegorse::Defunct>) {
    (state.actives().collect(), state.defuncts().collect())
}

/// Random work over a bad link: the backup drifts, the spare doesn't.
#[test]
fn a_backup_by_arrival_drifts() {
    // An emulator is a hundred times as slow (bin/emulated).
    let emulated = std::env::var_os("CARGO_TARGET_X86_64_UNKNOWN_LINUX_GNU_RUNNER").is_some();
    let (mut drifted, rounds) = (0, if emulated { 4 } else { 100 });
    for seed in 0..rounds {
        let rng = &mut Rng::new(seed);
        let mut link = Link::new(
            seed,
            Weather {
                lost: 10,
                repeated: 10,
                delayed: 20,
            },
        );
        let mut primary = Replica::empty();
        let (mut backup, mut spare) = (Backup(Replica::empty()), Replica::empty());
        // Every other time with boards.
        if seed % 2 == 1 {
            primary.watch();
            spare.watch();
        }
        // A second spare, which follows as chunks what the first applies record by record.
        let mut whole = Replica::empty();
        let mut book: Vec<Vec<u8>> = Vec::new();
        for clock in 0..60 {
            let operation = work::operation(rng, &primary, 1000 + clock);
            let (record, _) = primary.perform(&operation).unwrap();
            book.push(record.clone());
            let arrivals = link.carry(record);
            assert_eq!(whole.follow(&arrivals.concat()).read, arrivals.len());
            for arrival in arrivals {
                backup.apply(&arrival);
                spare.apply(&arrival, 0);
            }
            assert_eq!(whole, spare, "seed {seed}");
        }
        // The primary resends from the number that the spare expects, over the same link, until
        // it has everything. A backup by arrival asks for nothing; it gets the same records.
        while (spare.expected() as usize) < book.len() {
            let mut chunk = Vec::new();
            for record in &book[spare.expected() as usize..] {
                for arrival in link.carry(record.clone()) {
                    backup.apply(&arrival);
                    spare.apply(&arrival, 0);
                    chunk.extend(arrival);
                }
            }
            whole.follow(&chunk);
            assert_eq!(whole, spare, "seed {seed}");
        }
        assert_eq!(spare.image(), primary.image(), "seed {seed}");
        assert_eq!(spare.board(), primary.board(), "seed {seed}");
        drifted += u64::from(locks(&backup.0) != locks(&primary));
    }
    println!("by arrival {drifted} of {rounds} backups drifted, by sequence none");
    assert!(drifted > rounds / 2, "only {drifted} of {rounds} drifted");
}
