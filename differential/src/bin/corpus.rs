// SPDX-License-Identifier: Apache-2.0
//! Writes first inputs for the fuzzer: small sound states with a record, a chunk of records, a
//! read or a deletion, with a board and a record or a deletion, or with an operation to perform.
//!
//! ```text
//! corpus FOLDER [INPUTS]
//! ```

use std::{env, fs, path::PathBuf, process::ExitCode};

use oracle::{
    asked::Asked,
    board, boundary,
    generate::{self, Case, Profile, Rng},
    model::{Operation, Scope},
    wire,
};

fn main() -> ExitCode {
    let words: Vec<String> = env::args().skip(1).collect();
    let (Some(folder), Ok(inputs)) = (
        words.first().map(PathBuf::from),
        words.get(1).map_or(Ok(400), |word| word.parse::<u64>()),
    ) else {
        eprintln!("corpus FOLDER [INPUTS]");
        return ExitCode::from(2);
    };
    for seed in 0..inputs {
        let path = folder.join(format!("seed-{seed:04}"));
        if let Err(error) = fs::write(&path, input(seed)) {
            eprintln!("{}: {error}", path.display());
            return ExitCode::FAILURE;
        }
    }
    println!("{inputs} inputs in {}", folder.display());
    ExitCode::SUCCESS
}

/// Function, choice of lengths (2: enough), place or question, image length, image, the rest.
fn input(seed: u64) -> Vec<u8> {
    let mut rng = Rng::new(seed);
    let profile = [Profile::Tiny, Profile::Tiny, Profile::Small, Profile::Chain][rng.below(4)];
    let case = Case::of(&mut rng, profile);
    let expected = [0, 5, u32::MAX][rng.below(3)];
    let image = wire::write_image(&case.state, expected).expect("a sound state");
    let (function, extra, rest) = match rng.below(11) {
        0 => {
            let kind = rng.below(14);
            let read = generate::read_of(&mut rng, &case, kind);
            let (question, x, y, record) = boundary::question(&read);
            let mut rest = x.to_le_bytes().to_vec();
            rest.extend(y.to_le_bytes());
            rest.extend(record);
            (2, question as u8, rest)
        }
        1 => (3, 0, deletion(&generate::operation_of(&mut rng, &case, 8))),
        2 => (6, 0, generate::feed(&mut rng, &case, expected, 5)),
        3..5 => {
            let feed = generate::feed(&mut rng, &case, expected, 2);
            (7, 0, [how_lent(&mut rng), feed].concat())
        }
        5 => {
            let operation = generate::operation_of(&mut rng, &case, 8);
            (8, 0, [how_lent(&mut rng), deletion(&operation)].concat())
        }
        6 => (9, 5, numbers(&generate::operation(&mut rng, &case))),
        7..9 => (10, 0, numbers(&generate::operation(&mut rng, &case))),
        _ => (0, 0, generate::feed(&mut rng, &case, expected, 2)),
    };
    let mut bytes = vec![function, 2 + 8 * 5, extra];
    bytes.extend((image.len() as u16).to_le_bytes());
    bytes.extend(image);
    bytes.extend(rest);
    bytes
}

/// The image's own board, of its size; now and then with a byte changed.
fn how_lent(rng: &mut Rng) -> Vec<u8> {
    let size = 4 * 3;
    if rng.percent(70) {
        return vec![size];
    }
    let [low, high] = (rng.below(board::SIZE) as u16).to_le_bytes();
    vec![size + 1, low, high, 1]
}

/// An operation's numbers in the library's order, and its list.
fn numbers(operation: &Operation) -> Vec<u8> {
    let Some((asked, list)) = Asked::of(operation) else {
        return Vec::new();
    };
    let mut bytes = Vec::new();
    let times = [asked.expires, asked.now];
    let words = [&asked.id[..], &asked.parent, &asked.set, &times].concat();
    bytes.extend(words.iter().flat_map(|word| word.to_le_bytes()));
    for number in [asked.principal, asked.metadata, asked.breaker] {
        bytes.extend(number.to_le_bytes());
    }
    bytes.extend(asked.kind.to_le_bytes());
    bytes.extend(asked.subject.to_le_bytes());
    bytes.extend([asked.scope, asked.number, asked.exclusive]);
    bytes.extend([asked.coverage, asked.child, asked.given]);
    bytes.extend(list.iter().flat_map(|word| word.to_le_bytes()));
    bytes
}

fn deletion(operation: &Operation) -> Vec<u8> {
    let Operation::DeleteDefunct { id, scope, subject } = operation else {
        return Vec::new();
    };
    let mut bytes = id.0.to_vec();
    bytes.extend(match scope {
        Scope::Vehicle => [0, 0],
        Scope::Ecu(ecu) => [1, *ecu],
        Scope::Group(group) => [2, *group],
    });
    bytes.extend(subject.to_le_bytes());
    bytes
}
