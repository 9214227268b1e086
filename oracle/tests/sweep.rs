// SPDX-License-Identifier: Apache-2.0
//! The proved reader and this crate's reader answer every single-byte change and every cut of an
//! image alike: the gate holds the program `sweep` to its stored output, and this test holds the
//! stored output to this crate.

use std::{fs, path::Path};

fn stored(name: &str) -> Vec<u8> {
    let path = Path::new(env!("CARGO_MANIFEST_DIR"))
        .join("../crates/sweep")
        .join(name);
    fs::read(&path).unwrap_or_else(|e| panic!("{}: {e}", path.display()))
}

#[test]
fn every_change_of_one_byte_and_every_cut() {
    let image = stored("stdin");
    let told = String::from_utf8(stored("stdout")).expect("text");
    let found = oracle::sweep::lines(&image);
    for (stored, found) in told.lines().zip(found.lines()) {
        assert_eq!(stored, found);
    }
    assert_eq!(told, found);
    let counts: Vec<u64> = found
        .lines()
        .filter(|line| line.starts_with("answer"))
        .map(|line| {
            line.rsplit(' ')
                .next()
                .expect("a count")
                .parse()
                .expect("a number")
        })
        .collect();
    assert_eq!(counts.iter().sum::<u64>(), 256 * image.len() as u64);
    // Rule 0 can't be broken by an image; every other answer came.
    assert!(
        counts
            .iter()
            .enumerate()
            .all(|(place, n)| (place == 5) == (*n == 0))
    );
}
