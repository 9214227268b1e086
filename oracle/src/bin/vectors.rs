// SPDX-License-Identifier: Apache-2.0
//! Writes the sample of the oracle's answers: `vectors [FILE]`, ../crates/vectors/stdin if not given.

use std::{collections::BTreeMap, env, fs, process::ExitCode};

use oracle::vectors;

fn main() -> ExitCode {
    let path = env::args()
        .nth(1)
        .unwrap_or_else(|| "../crates/vectors/stdin".to_owned());
    let sample = vectors::sample();
    let file = vectors::file(&sample);
    let mut seen: BTreeMap<u32, usize> = BTreeMap::new();
    for vector in &sample {
        *seen.entry(vector.applied.told.number).or_default() += 1;
    }
    if let Err(error) = fs::write(&path, &file) {
        eprintln!("{path}: {error}");
        return ExitCode::FAILURE;
    }
    for (number, count) in seen {
        println!("{number:>3}: {count} cases");
    }
    println!("{path}: {} cases, {} bytes", sample.len(), file.len());
    ExitCode::SUCCESS
}
