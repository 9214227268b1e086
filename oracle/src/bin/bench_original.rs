// SPDX-License-Identifier: Apache-2.0
//! Times the original: nanoseconds a call, for each operation and size. States are cloned,
//! arguments made and results dropped outside of the timed part; the original's own clone of its
//! state is inside, since it is part of every operation. The clone alone stands in its own row.
//! Insertions are timed at 63 active locks for 64, the replacement at 127 defunct ones for 128.
//!
//! ```text
//! bench_original [MILLISECONDS A CELL]
//! ```

use std::{
    env,
    hint::black_box,
    time::{Duration, Instant},
};

use oracle::{
    bench::{SIZES, rows, state},
    model::Operation,
    original::{Call, Original},
};

/// Calls timed together: enough to hide the clock, few enough to stay in the cache.
const BATCH: usize = 4;

/// Calls are timed in batches; of all batches the median, and the one that a tenth are faster
/// than, which other work on the machine disturbs less.
#[derive(Clone, Copy)]
struct Times {
    median: f64,
    tenth: f64,
}

fn main() {
    let cell = env::args()
        .nth(1)
        .and_then(|text| text.parse().ok())
        .unwrap_or(300);
    let cell = Duration::from_millis(cell);
    let mut timed: Vec<(&str, Vec<Times>)> = Vec::new();
    for (name, cells) in rows() {
        let times = cells
            .iter()
            .map(|timed| operation(&Original::new(&timed.state), &timed.operation, cell));
        timed.push((name, times.collect()));
    }
    let clone = SIZES.map(|(active, defunct)| {
        let original = Original::new(&state(active, defunct));
        rounds(cell, || clones(&original))
    });
    timed.push(("(clone and drop)", clone.to_vec()));
    print("ns a call, median", &timed, |times| times.median);
    print("ns a call, tenth", &timed, |times| times.tenth);
}

fn print(title: &str, rows: &[(&str, Vec<Times>)], pick: fn(&Times) -> f64) {
    print!("{title:<22}");
    for (active, defunct) in SIZES {
        print!("{:>12}", format!("{active}/{defunct}"));
    }
    println!();
    for (name, cells) in rows {
        print!("{name:<22}");
        for times in cells {
            print!("{:>12.0}", pick(times));
        }
        println!();
    }
    println!();
}

fn operation(original: &Original, operation: &Operation, cell: Duration) -> Times {
    rounds(cell, || {
        let mut states: Vec<Original> = (0..BATCH).map(|_| original.clone()).collect();
        let calls: Vec<Call> = (0..BATCH).filter_map(|_| Call::new(operation)).collect();
        let mut replies = Vec::with_capacity(BATCH);
        let start = Instant::now();
        for (state, call) in states.iter_mut().zip(calls) {
            replies.push(black_box(state.call(black_box(call))));
        }
        start.elapsed()
    })
}

fn clones(original: &Original) -> Duration {
    let start = Instant::now();
    for _ in 0..BATCH {
        drop(black_box(original.clone()));
    }
    start.elapsed()
}

/// Rounds until the time is up.
fn rounds(cell: Duration, mut round: impl FnMut() -> Duration) -> Times {
    let mut times = Vec::new();
    let start = Instant::now();
    while start.elapsed() < cell || times.len() < 50 {
        times.push(round());
    }
    times.sort_unstable();
    let at = |place: usize| times[place].as_nanos() as f64 / BATCH as f64;
    Times {
        median: at(times.len() / 2),
        tenth: at(times.len() / 10),
    }
}
