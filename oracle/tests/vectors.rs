// SPDX-License-Identifier: Apache-2.0
//! The file of vectors is what is made from the oracle today, and covers what it should.

use std::{collections::BTreeSet, sync::LazyLock};

use oracle::{
    boundary,
    vectors::{LIMIT, NUMBERS, Vector, file, sample},
};

static SAMPLE: LazyLock<Vec<Vector>> = LazyLock::new(sample);

#[test]
fn remaking_gives_the_same_bytes() {
    let kept = include_bytes!("../../crates/vectors/stdin");
    assert!(
        file(&SAMPLE) == kept,
        "run `cargo run --release --bin vectors`"
    );
    assert!(kept.len() < LIMIT);
}

#[test]
fn every_operation_and_every_number_twice() {
    let sample = &*SAMPLE;
    for number in NUMBERS {
        let count = sample
            .iter()
            .filter(|v| v.applied.told.number == u32::from(number))
            .count();
        assert!(count >= 2, "{number}: {count}");
    }
    for kind in 16..=23 {
        let with = |number| {
            sample
                .iter()
                .filter(|v| v.applied.part == 2 && v.record[2] == kind)
                .filter(|v| (v.applied.told.number == 0) == number)
                .count()
        };
        assert!(
            with(true) >= 1 && with(true) + with(false) >= 2,
            "kind {kind}"
        );
    }
    let rules: BTreeSet<u64> = sample
        .iter()
        .filter(|v| v.applied.told.number == 12)
        .map(|v| v.applied.told.values[0])
        .collect();
    assert_eq!(rules, (1..=9).collect());
}

/// The file read by its format alone: each case is what the boundary answers.
#[test]
fn the_file_reads_back() {
    let kept = include_bytes!("../../crates/vectors/stdin");
    let mut rest = &kept[..];
    let mut cases = 0;
    let take = |rest: &mut &[u8], count: usize| {
        let (part, after) = rest.split_at(count);
        *rest = after;
        part.to_vec()
    };
    let number = |rest: &mut &[u8]| {
        let bytes = take(rest, 4);
        u32::from_le_bytes(bytes.try_into().unwrap())
    };
    while !rest.is_empty() {
        let length = number(&mut rest) as usize;
        let image = take(&mut rest, length);
        let length = number(&mut rest) as usize;
        let record = take(&mut rest, length);
        let answer = number(&mut rest);
        let length = number(&mut rest) as usize;
        let next = take(&mut rest, length);
        let count = number(&mut rest) as usize;
        let removed = take(&mut rest, count * 91);
        let (mut a, mut b, mut c) = (vec![0; 20_000], vec![0; 6_000], vec![0; 2_048]);
        let applied = boundary::apply(&image, &record, 0, &mut a, &mut b, &mut c);
        assert_eq!(applied.told.number, answer);
        assert_eq!(&a[..applied.written as usize], next);
        assert_eq!(&b[..applied.gone as usize * 91], removed);
        cases += 1;
    }
    assert_eq!(cases, SAMPLE.len());
}
