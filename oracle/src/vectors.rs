// SPDX-License-Identifier: Apache-2.0
//! A fixed sample of the oracle's answers as data, for a run without Rust at hand: images with a
//! record each, and what applying it gives. Every operation, and every number that an image and
//! a record can get, at least twice. vectors/README.md has the format.

use std::collections::BTreeMap;

use crate::{
    boundary::{self, Applied},
    generate::{self, Case, Profile, Rng},
    model::{ACTIVE_LIMIT, Active, Coverage, Id, IdList, Lock, Operation, Scope, State},
    wire,
};

/// Most bytes of the whole sample.
pub const LIMIT: usize = 60_000;
/// A case longer than this gives way to a shorter one of the same label.
const SHORT: usize = 500;
/// Numbers that an image and a record can get; 14 and 21 can't come from them.
pub const NUMBERS: [u8; 20] = [
    0, 1, 2, 3, 4, 5, 6, 7, 8, 9, 10, 11, 12, 13, 15, 16, 17, 18, 19, 20,
];

/// One case: an image, a record and what applying it gives.
#[derive(Clone, Debug)]
pub struct Vector {
    pub image: Vec<u8>,
    pub record: Vec<u8>,
    pub applied: Applied,
    /// Empty: nothing is written.
    pub next: Vec<u8>,
    /// ACTIVE records of 91 bytes.
    pub removed: Vec<u8>,
    expired: usize,
}

impl Vector {
    fn new(image: Vec<u8>, record: Vec<u8>) -> Self {
        let (mut next, mut removed, mut expired) = (vec![0; 20_000], vec![0; 6_000], [0; 2_048]);
        let applied = boundary::apply(&image, &record, 0, &mut next, &mut removed, &mut expired);
        next.truncate(applied.written as usize);
        removed.truncate(applied.gone as usize * 91);
        Self {
            image,
            record,
            applied,
            next,
            removed,
            expired: applied.lapsed as usize,
        }
    }

    fn bytes(&self) -> Vec<u8> {
        let mut bytes = Vec::new();
        let mut part = |part: &[u8]| {
            bytes.extend((part.len() as u32).to_le_bytes());
            bytes.extend_from_slice(part);
        };
        part(&self.image);
        part(&self.record);
        bytes.extend(self.applied.told.number.to_le_bytes());
        bytes.extend((self.next.len() as u32).to_le_bytes());
        bytes.extend_from_slice(&self.next);
        bytes.extend((self.applied.gone as u32).to_le_bytes());
        bytes.extend_from_slice(&self.removed);
        bytes
    }

    /// What makes it a case of its own: kind, number, values that are cases, and how much went.
    fn label(&self) -> String {
        let told = &self.applied.told;
        let kind = match self.applied.part {
            0 => "image".to_owned(),
            1 => "record".to_owned(),
            _ => self.record[2].to_string(),
        };
        let case = match (told.number, self.applied.part, self.record.get(2)) {
            (11 | 12, ..) | (0, 2, Some(20 | 22)) => told.values[0],
            _ => 0,
        };
        let (gone, expired) = (self.applied.gone.min(2), self.expired.min(2));
        format!("{kind} {} {case} {gone} {expired}", told.number)
    }
}

/// The sample, in a fixed order.
#[must_use]
pub fn sample() -> Vec<Vector> {
    let mut rng = Rng::new(20_261_115);
    let mut found: BTreeMap<String, Vec<Vector>> = BTreeMap::new();
    for _ in 0..30_000 {
        let vector = draw(&mut rng);
        let length = vector.bytes().len();
        let same = found.entry(vector.label()).or_default();
        // The first two, and shorter ones in the place of long ones.
        if same.len() < 2 {
            same.push(vector);
        } else if let Some(long) = same
            .iter_mut()
            .find(|v| v.bytes().len() > length.max(SHORT))
        {
            *long = vector;
        }
    }
    let mut all: Vec<Vector> = no_room().to_vec();
    let (firsts, seconds): (Vec<_>, Vec<_>) = found
        .into_values()
        .map(|mut same| {
            let second = same.split_off(1);
            (same, second)
        })
        .unzip();
    all.extend(firsts.into_iter().flatten());
    // A second case only where the number would stand alone.
    for vector in seconds.into_iter().flatten() {
        let number = vector.applied.told.number;
        if all
            .iter()
            .filter(|v| v.applied.told.number == number)
            .count()
            < 2
        {
            all.push(vector);
        }
    }
    all
}

/// A small state, or what is left of its image, and a record for it.
fn draw(rng: &mut Rng) -> Vector {
    let case = loop {
        let case = Case::of(rng, Profile::Tiny);
        if case.state.active.len() + case.state.defunct.len() <= 6 {
            break case;
        }
    };
    let expected = [0, 7, u32::MAX][rng.below(3)];
    let mut image = wire::write_image(&case.state, expected).expect("a sound state");
    let operation = generate::operation(rng, &case);
    let sequence = match rng.below(12) {
        0 => expected.wrapping_add(1),
        1 => expected.wrapping_sub(1),
        _ => expected,
    };
    let mut record = wire::write_feed(&operation, sequence).unwrap_or_default();
    match rng.below(12) {
        0 => generate::damage(rng, &mut image),
        1 => image = wire::write_records(&generate::unsound(rng, &case), expected),
        2 => generate::damage(rng, &mut record),
        _ => {}
    }
    Vector::new(image, record)
}

/// 13, which only a full state gives: an insertion and a replacement of nothing at 64 locks.
fn no_room() -> [Vector; 2] {
    let lock = |place: usize| Active {
        lock: Lock {
            id: Id::from_number(place as u128),
            scope: Scope::Ecu(place as u8),
            exclusive: false,
            coverage: Coverage::of(&[place as u8]),
            subject: place as u16,
            principal: 0,
            metadata: 0,
        },
        expires: 100,
        parent: None,
    };
    let state = State {
        revision: 64,
        active: (0..ACTIVE_LIMIT).map(lock).collect(),
        defunct: Vec::new(),
    };
    let image = wire::write_image(&state, 64).expect("a sound state");
    let new = lock(200);
    [
        Operation::InsertActive { lock: new },
        Operation::CommitReplacement {
            roots: IdList::default(),
            lock: new,
            broken_by: 0,
            broken_at: 0,
        },
    ]
    .map(|operation| {
        let record = wire::write_feed(&operation, 64).expect("a feed operation");
        Vector::new(image.clone(), record)
    })
}

/// A sample as the file holds it.
#[must_use]
pub fn file(sample: &[Vector]) -> Vec<u8> {
    sample.iter().flat_map(Vector::bytes).collect()
}
