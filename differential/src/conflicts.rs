// SPDX-License-Identifier: Apache-2.0
//! Directed cases of 7: locks of two subjects whose coverages overlap at a chosen ECU, at none, or
//! nowhere. Where they do stands here beside them, so that library, crate and judge can't all be
//! wrong alike.

use cablegorse::{Overlap, Replica};
use oracle::{
    boundary::Told,
    judge::Judge,
    model::{Active, Coverage, Id, IdList, Lock, Operation, Scope, State},
    wire,
};

use crate::{
    pair::{self, Buffers, Subject},
    run::check_step,
    tally::{Tally, label},
    words,
};

/// Two coverages and where they overlap.
pub type Meeting = (Coverage, Coverage, Overlap);

fn set(ecus: impl IntoIterator<Item = u8>) -> Coverage {
    Coverage::of(&ecus.into_iter().collect::<Vec<u8>>())
}

/// Where a word of a set begins or ends, and the neighbours of 0 and 255.
pub const BORDERS: [u8; 10] = [0, 1, 63, 64, 127, 128, 191, 192, 254, 255];

/// Those without an ECU, and for each of these ECUs some that overlap there and some that just
/// don't.
#[must_use]
pub fn meetings(ecus: impl IntoIterator<Item = u8>) -> Vec<Meeting> {
    let (whole, empty) = (Coverage::Vehicle, set([]));
    let mut all = vec![
        (whole, whole, Overlap::Meets(None)),
        (whole, empty, Overlap::Meets(None)),
        (empty, empty, Overlap::Apart),
        (empty, set(0..=255), Overlap::Apart),
    ];
    for ecu in ecus {
        let here = Overlap::Meets(Some(ecu));
        let (alone, up) = (set([ecu]), set(ecu..=255));
        // All from here on, and lower ones that only one of the two has.
        let half = |bit| set((0..=255).filter(|e| *e >= ecu || e % 2 == bit));
        all.extend([
            (alone, alone, here),
            (set(0..=ecu), up, here),
            (half(0), half(1), here),
            (whole, alone, here),
            (whole, up, here),
            (set(0..ecu), up, Overlap::Apart),
        ]);
    }
    all
}

/// What the lock in the way is, and how the new one comes.
#[derive(Clone, Copy, Debug, PartialEq, Eq)]
enum Way {
    /// A group's; an insertion.
    Group,
    /// The vehicle's; an insertion.
    Vehicle,
    /// A group's, and a later one that covers the whole vehicle; an insertion.
    Later,
    /// A group's; a replacement of one that would be in the way before it.
    Replacement,
}

const WAYS: [Way; 4] = [Way::Group, Way::Vehicle, Way::Later, Way::Replacement];

/// First half of most ids; the one that is replaced is lower.
const HALF: u64 = 5;
const IN_THE_WAY: u64 = 2;

fn lock(id: [u64; 2], scope: Scope, coverage: Coverage, subject: u16) -> Active {
    Lock::plain(Id::from_words(id[0], id[1]), scope, coverage, subject).until(100)
}

fn case(there: Coverage, new: Coverage, way: Way) -> (State, Operation) {
    let scope = match way {
        Way::Vehicle => Scope::Vehicle,
        _ => Scope::Group(3),
    };
    let root = lock([0, 1], Scope::Ecu(9), new, 1);
    let other = lock([HALF, IN_THE_WAY], scope, there, 1);
    let later = lock([HALF, 9], Scope::Group(4), Coverage::Vehicle, 1);
    let lock = lock([HALF, 3], Scope::Ecu(9), new, 2);
    let (active, operation) = match way {
        Way::Group | Way::Vehicle => (vec![other], Operation::InsertActive { lock }),
        Way::Later => (vec![other, later], Operation::InsertActive { lock }),
        Way::Replacement => {
            let operation = Operation::CommitReplacement {
                roots: IdList::of(&[root.lock.id]),
                lock,
                broken_by: 0,
                broken_at: 0,
            };
            (vec![root, other], operation)
        }
    };
    let state = State {
        active,
        ..State::default()
    };
    (state, operation)
}

/// A meeting both ways round, in every way.
#[must_use]
pub fn run(meeting: &Meeting) -> Tally {
    let (one, other, due) = *meeting;
    let mut tally = Tally::default();
    let mut buffers = Buffers::default();
    let mut turns = vec![(one, other), (other, one)];
    turns.dedup();
    for (there, new) in turns {
        assert_eq!(
            words::coverage(&there).overlaps(&words::coverage(&new)),
            due,
            "the table"
        );
        for way in WAYS {
            // Where they are apart the later one would be told: another meeting.
            if way != Way::Later || due != Overlap::Apart {
                compare(&mut buffers, &mut tally, &case(there, new, way), due);
            }
        }
    }
    tally
}

fn compare(buffers: &mut Buffers, tally: &mut Tally, case: &(State, Operation), due: Overlap) {
    let (state, operation) = case;
    let image = wire::write_image(state, 0).expect("a sound state");
    let record = wire::write_feed(operation, 0).expect("a feed operation");
    let mut judge = Judge::new(state);
    let subject = Subject::new(&image, &mut judge, 0);
    let (applied, full) = pair::apply(buffers, &subject, &record, 0, |needed| {
        needed.map(|bytes| bytes + 1)
    });
    let told = match due {
        Overlap::Apart => Told::default(),
        Overlap::Meets(None) => Told::new(7, &[HALF, IN_THE_WAY, 0, 0]),
        Overlap::Meets(Some(ecu)) => Told::new(7, &[HALF, IN_THE_WAY, 1, ecu.into()]),
    };
    assert_eq!(applied.told, told, "the table: {operation:?} on {state:?}");
    let mut spare = Replica::from_image(&image).expect("a sound state");
    let step = spare.apply(&record, 0);
    check_step(&step, &full, &spare, &image);
    tally.states += 1;
    tally.operations += 1;
    tally.see("directed conflicts", label(&applied.told));
}
