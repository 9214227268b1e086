// SPDX-License-Identifier: Apache-2.0
//! The takeover drill: a primary and a spare in two processes joined by a pipe, with a link
//! between that loses, repeats, delays and reorders records by a seed. The spare applies record by
//! record in some rounds and follows what a read brought as a whole in others. The primary is
//! killed at a random moment and the spare takes over; its image is held to the primary's byte for
//! byte, and so is the board that it keeps in some rounds.
//!
//! ```text
//! drill [TAKEOVERS] [SEED]
//! ```

mod primary;
mod spare;
mod wire;

use std::{env, process::ExitCode, time::Instant};

use cablegorse::Replica;

use spare::{Side, Sums};

fn main() -> ExitCode {
    let words: Vec<String> = env::args().skip(1).collect();
    if let [name, seed, clock, book] = &words[..]
        && name == "primary"
        && let (Ok(seed), Ok(clock)) = (seed.parse(), clock.parse())
    {
        // A pipe that breaks is how a primary's life ends when its spare has ended first.
        let _ = primary::run(seed, clock, book);
        return ExitCode::SUCCESS;
    }
    let number = |place: usize, default: u64| match words.get(place) {
        None => Some(default),
        Some(word) => word.parse().ok(),
    };
    let (Some(takeovers), Some(seed), 0..=2) = (number(0, 10_000), number(1, 1), words.len())
    else {
        eprintln!("drill [TAKEOVERS] [SEED]");
        return ExitCode::from(2);
    };
    let book = env::temp_dir().join(format!("cablegorse-drill-{}", std::process::id()));
    let mut side = Side {
        spare: begin(),
        clock: 1000,
        sums: Sums::default(),
        book: &book,
    };
    let start = Instant::now();
    for round in 0..takeovers {
        if let Err(why) = side.round(seed.wrapping_mul(1_000_003).wrapping_add(round)) {
            eprintln!(
                "drill FAILED in round {round}, seed {seed}: {why}\n{:?}",
                side.spare
            );
            return ExitCode::FAILURE;
        }
        let done = round + 1;
        if done.is_multiple_of((takeovers / 20).max(1)) {
            eprintln!(
                "{done} of {takeovers} takeovers, {} records applied, {:.0} s",
                side.sums.applied,
                start.elapsed().as_secs_f64()
            );
        }
    }
    summary(&side.sums, seed, start);
    ExitCode::SUCCESS
}

/// An empty state shortly before the number wraps.
fn begin() -> Replica {
    let mut image = Replica::empty().image().to_vec();
    image[12..16].copy_from_slice(&(u32::MAX - 100).to_le_bytes());
    Replica::from_image(&image).expect("an empty state")
}

fn summary(sums: &Sums, seed: u64, start: Instant) {
    println!(
        "link: {} lost, {} repeated, {} delayed; spare: {} Repeat, {} Ahead, {} resends asked for, {} chunks followed whole and {} cut, {} torn ends",
        sums.link.lost,
        sums.link.repeated,
        sums.link.delayed,
        sums.repeats,
        sums.aheads,
        sums.resends,
        sums.chunks - sums.cut,
        sums.cut,
        sums.torn
    );
    println!(
        "at takeover {:.1} records behind on average, {} at most; the number wrapped {} times; {} rivals refused; {} boards as made afresh, {} of them as the primary's",
        sums.behind as f64 / sums.takeovers.max(1) as f64,
        sums.most_behind,
        sums.wraps,
        sums.refused_rivals,
        sums.boards,
        sums.boards_of_two
    );
    // Half of the spares watch, so twenty takeovers without a board would be another drill.
    assert!(
        sums.takeovers < 20 || sums.boards > 0,
        "no spare kept a board"
    );
    println!(
        "drill: {} takeovers, {} records made, {} applied, 0 out of turn, 0 images differ, 0 double holders, seed {seed}, {:.0} s",
        sums.takeovers,
        sums.made,
        sums.applied,
        start.elapsed().as_secs_f64()
    );
}
