// SPDX-License-Identifier: Apache-2.0
//! The static library beside the original, by seeds. A difference ends the run with the input.
//!
//! ```text
//! differential [OPERATIONS] [SEED] [THREADS]   random states until so many operations were run,
//!                                              a part of the tiny universe, every byte of a
//!                                              rich image, the directed conflicts, the writer's
//!                                              rooms, lists and numbers; fails on an answer or
//!                                              a case seldom seen
//! differential blocks [OPERATIONS] [SEED] [THREADS]   random states, conflicts at a few ECUs, the writer
//! differential block SEED                      one block of random states again
//! differential conflicts [THREADS]             locks that overlap at every ECU, and at none
//! differential tiny [STEP]                     every STEP-th state of the tiny universe
//! differential replay PROGRAM [FEEDS] [SEED]   what the program prints, beside the judge
//! differential spare PROGRAM [FEEDS] [SEED]    the same from a base image, and the new image
//! ```

use std::{
    env, fs,
    io::Write,
    process::{Command, ExitCode, Stdio},
    sync::{
        Mutex,
        atomic::{AtomicBool, AtomicU64, Ordering},
    },
    thread,
    time::Instant,
};

use differential::{
    conflicts,
    run::{FEED_NAMES, Run, rich, tiny_universe},
    tally::{CASES, OF_A_WRITER, REACHABLE, Tally, WRITTEN},
    writer,
};
use oracle::{judge, stories, wire};

/// Each reachable answer is to be seen this often.
const OFTEN: u64 = 100;
/// Each change of a story that is wanted is to be seen this often.
const SOMETIMES: u64 = 10;

fn main() -> ExitCode {
    let words: Vec<String> = env::args().skip(1).collect();
    let number = |place: usize, default: u64| match words.get(place) {
        None => Some(default),
        Some(word) => word.parse().ok(),
    };
    let numbers = match words.first().map(String::as_str) {
        Some("block" | "tiny") => [number(1, 1), Some(0), Some(0)],
        Some("conflicts") => [Some(0), Some(0), number(1, 2)],
        Some("blocks") => [number(1, 1_000_000), number(2, 1), number(3, 2)],
        Some("replay" | "spare") if words.len() > 1 => [number(2, 300), number(3, 1), Some(0)],
        _ => [number(0, 1_000_000), number(1, 1), number(2, 2)],
    };
    let [Some(first), Some(seed), Some(threads)] = numbers else {
        eprintln!(
            "differential [OPERATIONS] [SEED] [THREADS] | blocks [OPERATIONS] [SEED] [THREADS] | block SEED | conflicts [THREADS] | tiny [STEP] | replay or spare PROGRAM [FEEDS] [SEED]"
        );
        return ExitCode::from(2);
    };
    match words.first().map(String::as_str) {
        Some("block") => {
            let tally = Run::block(first);
            tally.print();
            println!(
                "block {first}: no difference in {} operations",
                tally.operations
            );
            ExitCode::SUCCESS
        }
        Some("blocks") => blocks(first, seed, threads.max(1)),
        Some("conflicts") => match conflicts_part(0..=255, threads.max(1)) {
            Some(_) => ExitCode::SUCCESS,
            None => ExitCode::FAILURE,
        },
        Some("tiny") => tiny(first.max(1) as usize),
        Some(name @ ("replay" | "spare")) => {
            let compare = if name == "replay" { replay } else { spare };
            match programs(&words[1], first, seed, compare) {
                Ok(lines) => {
                    println!("{name}: {first} feeds, {lines} lines, no difference");
                    ExitCode::SUCCESS
                }
                Err(why) => {
                    eprintln!("{why}");
                    ExitCode::FAILURE
                }
            }
        }
        _ => whole(first, seed, threads.max(1)),
    }
}

/// Runs a program on random feeds and compares what it prints; how many lines that were.
fn programs(
    program: &str,
    feeds: u64,
    seed: u64,
    compare: fn(&str, u64) -> Result<usize, String>,
) -> Result<usize, String> {
    let mut lines = 0;
    for place in 0..feeds {
        let seed = seed.wrapping_mul(1_000_000).wrapping_add(place);
        lines += compare(program, seed).map_err(|why| format!("feed {seed}: {why}"))?;
    }
    Ok(lines)
}

fn same_output(printed: &[u8], due: &str) -> Result<usize, String> {
    if printed == due.as_bytes() {
        return Ok(due.lines().count());
    }
    let printed = String::from_utf8_lossy(printed);
    Err(format!("DIFFERENCE\nprogram:\n{printed}\njudge:\n{due}"))
}

fn replay(program: &str, seed: u64) -> Result<usize, String> {
    let feed = Run::feed_from_empty(seed);
    let failed = |error: std::io::Error| format!("{program}: {error}");
    let mut child = Command::new(program)
        .stdin(Stdio::piped())
        .stdout(Stdio::piped())
        .spawn()
        .map_err(failed)?;
    let mut input = child.stdin.take().ok_or("no pipe")?;
    // It may stop reading early; what it prints is what counts.
    let bytes = feed.clone();
    let writer = thread::spawn(move || {
        let _ = input.write_all(&bytes);
    });
    let output = child.wait_with_output().map_err(failed)?;
    let _ = writer.join();
    same_output(&output.stdout, &judge::replay(&feed))
}

fn spare(program: &str, seed: u64) -> Result<usize, String> {
    let (base, feed) = Run::base_and_feed(seed);
    let failed = |error: std::io::Error| format!("{program}: {error}");
    let folder = env::temp_dir().join(format!("cablegorse-spare-{}", std::process::id()));
    fs::create_dir_all(&folder).map_err(failed)?;
    let [base_at, feed_at, new_at] = ["base", "feed", "new"].map(|name| folder.join(name));
    fs::write(&base_at, &base).map_err(failed)?;
    fs::write(&feed_at, &feed).map_err(failed)?;
    let output = Command::new(program)
        .args([&base_at, &feed_at, &new_at])
        .output()
        .map_err(failed)?;
    let new = fs::read(&new_at).ok();
    fs::remove_dir_all(&folder).map_err(failed)?;
    let (due, image) = match wire::read_image(&base) {
        Err(refusal) => {
            let line = format!("base {} {}\n", refusal.number(), refusal.place());
            (line, None)
        }
        Ok((state, expected)) => {
            let (lines, after) = judge::play(judge::Spare { state, expected }, &feed);
            let image = wire::write_image(&after.state, after.expected);
            (lines, image.ok())
        }
    };
    if new != image {
        return Err("DIFFERENCE in the new image".to_owned());
    }
    same_output(&output.stdout, &due)
}

/// Hands out places to threads until there are none left or one has failed.
fn spread(threads: u64, places: u64, work: impl Fn(u64) -> Option<Tally> + Sync) -> Option<Tally> {
    let (next, failed) = (AtomicU64::new(0), AtomicBool::new(false));
    let sum = Mutex::new(Tally::default());
    thread::scope(|scope| {
        for _ in 0..threads {
            scope.spawn(|| {
                while !failed.load(Ordering::Relaxed) {
                    let place = next.fetch_add(1, Ordering::Relaxed);
                    if place >= places {
                        break;
                    }
                    match work(place) {
                        Some(tally) => sum.lock().expect("no thread panics with it").add(&tally),
                        None => failed.store(true, Ordering::Relaxed),
                    }
                }
            });
        }
    });
    let failed = failed.into_inner();
    (!failed).then(|| sum.into_inner().expect("no thread panics with it"))
}

/// A panic in a place is reported with the place, and ends the run.
fn guarded(name: &str, place: u64, work: impl FnOnce() -> Tally) -> Option<Tally> {
    match std::panic::catch_unwind(std::panic::AssertUnwindSafe(work)) {
        Ok(tally) => Some(tally),
        Err(_) => {
            eprintln!("DIFFERENCE in {name} {place}");
            None
        }
    }
}

fn tiny(step: usize) -> ExitCode {
    let Some(tally) = tiny_part(step, 2) else {
        return ExitCode::FAILURE;
    };
    tally.print();
    println!(
        "tiny universe, every {step}th state: {} states, {} operations, no difference",
        tally.states, tally.operations
    );
    ExitCode::SUCCESS
}

fn tiny_part(step: usize, threads: u64) -> Option<Tally> {
    let (states, operations) = tiny_universe(step);
    let parts: Vec<_> = states.chunks(8).collect();
    spread(threads, parts.len() as u64, |place| {
        guarded("tiny part", place, || {
            Run::small(parts[place as usize], &operations)
        })
    })
}

fn bytes_part(threads: u64) -> Option<Tally> {
    let (image, records) = rich();
    let mut tally = spread(threads, image.len().div_ceil(16) as u64, |place| {
        let from = place as usize * 16;
        guarded("image byte", from as u64, || {
            Run::every_byte(&image, from, from + 16)
        })
    })?;
    let of_records = spread(threads, records.len() as u64, |place| {
        guarded("record", place, || {
            Run::every_record_byte(&image, &records[place as usize])
        })
    })?;
    tally.add(&of_records);
    // Kinds of image records, feed kinds and their neighbours, and one beyond a byte.
    let kinds: Vec<u16> = (0..=4).chain(15..=24).chain([272]).collect();
    let of_lengths = spread(threads, kinds.len() as u64, |place| {
        let kind = kinds[place as usize];
        guarded("kind", kind.into(), || Run::every_length(&image, kind))
    })?;
    tally.add(&of_lengths);
    tally.add(&guarded("argument", 0, || Run::every_argument(&image))?);
    tally.add(&guarded("board", 0, || {
        Run::every_board_byte(&image, &records[0])
    })?);
    let chunk = in_turn(&records);
    tally.add(&guarded("chunk", 0, || Run::every_cut(&image, &chunk))?);
    Some(tally)
}

/// Rooms, lists and numbers for the writer, counted in a line of their own.
fn writings_part(threads: u64) -> Option<Tally> {
    let (image, records) = rich();
    let tally = spread(threads, 3, |place| {
        guarded("writing", place, || match place {
            0 => Run::every_room(&image, &records),
            1 => Run::every_list(&image),
            _ => Run::every_number(&image),
        })
    })?;
    println!(
        "a record of each kind into every room, lists about the limit, every number: {} calls, no difference",
        tally.calls
    );
    Some(tally)
}

/// The directed cases of 7, counted in a line of their own.
fn conflicts_part(ecus: impl IntoIterator<Item = u8>, threads: u64) -> Option<Tally> {
    let meetings = conflicts::meetings(ecus);
    let tally = spread(threads, meetings.len() as u64, |place| {
        guarded("meeting", place, || {
            conflicts::run(&meetings[place as usize])
        })
    })?;
    println!(
        "directed conflicts: {} cases, refused by 7 at an ECU {}, at none {}, done {}, no difference",
        tally.operations,
        tally.count("7"),
        tally.count("7 no ECU"),
        tally.count("0")
    );
    Some(tally)
}

/// Records as a chunk, each with the number after the one before it, and the first two again.
fn in_turn(records: &[Vec<u8>]) -> Vec<u8> {
    let mut records = records.to_vec();
    let first = u32::from_le_bytes(records[0][4..8].try_into().expect("4 bytes"));
    for (number, record) in (first..).zip(&mut records) {
        record[4..8].copy_from_slice(&number.to_le_bytes());
    }
    [&records, &records[..2]].concat().concat()
}

fn whole(operations: u64, seed: u64, threads: u64) -> ExitCode {
    let start = Instant::now();
    let Some(mut sum) = bytes_part(threads) else {
        return ExitCode::FAILURE;
    };
    println!(
        "every byte of an image, of its board and of a record of each kind, every length, every argument, every cut of a chunk: {} calls, no difference ({:.0} s)",
        sum.calls + sum.operations,
        start.elapsed().as_secs_f64()
    );
    for tally in [conflicts_part(0..=255, threads), writings_part(threads)] {
        let Some(tally) = tally else {
            return ExitCode::FAILURE;
        };
        sum.add(&tally);
    }
    // A tenth of the operations goes to the tiny universe.
    let (states, each) = tiny_universe(1);
    let step = (states.len() as u64 * each.len() as u64 * 10 / operations.max(1)).max(1) | 1;
    drop((states, each));
    let Some(tally) = tiny_part(step as usize, threads) else {
        return ExitCode::FAILURE;
    };
    println!(
        "tiny universe, every {step}th state: {} states, {} operations, no difference ({:.0} s)",
        tally.states,
        tally.operations,
        start.elapsed().as_secs_f64()
    );
    sum.add(&tally);
    let left = operations.saturating_sub(tally.operations);
    let Some(random) = random_part(left, seed, threads, start) else {
        return ExitCode::FAILURE;
    };
    sum.add(&random);
    ended(&sum, seed, threads, start);
    seldom(&sum)
}

/// Random states, and conflicts at a few ECUs: what an emulator can do in a time that one waits
/// for.
fn blocks(operations: u64, seed: u64, threads: u64) -> ExitCode {
    let start = Instant::now();
    let Some(mut sum) = conflicts_part(conflicts::BORDERS, threads) else {
        return ExitCode::FAILURE;
    };
    let Some(writings) = writings_part(threads) else {
        return ExitCode::FAILURE;
    };
    sum.add(&writings);
    let Some(random) = random_part(operations, seed, threads, start) else {
        return ExitCode::FAILURE;
    };
    sum.add(&random);
    ended(&sum, seed, threads, start);
    ExitCode::SUCCESS
}

/// Whole blocks: as many as it takes, counted by a first one, so that threads don't matter.
fn random_part(operations: u64, seed: u64, threads: u64, start: Instant) -> Option<Tally> {
    let first = guarded("block", seed, || Run::block(seed))?;
    let blocks = operations.div_ceil(first.operations.max(1)) + 1;
    let done = AtomicU64::new(0);
    spread(threads, blocks, |place| {
        let block = seed.wrapping_mul(1_000_000).wrapping_add(place);
        let tally = guarded("block", block, || Run::block(block));
        let count = done.fetch_add(1, Ordering::Relaxed) + 1;
        if count.is_multiple_of((blocks / 10).max(1)) {
            eprintln!(
                "{count} of {blocks} blocks, {:.0} s",
                start.elapsed().as_secs_f64()
            );
        }
        tally
    })
}

fn ended(sum: &Tally, seed: u64, threads: u64, start: Instant) {
    sum.print();
    println!(
        "no difference: {} operations and {} other calls on {} states, seed {seed}, {threads} threads, {:.0} s",
        sum.operations,
        sum.calls,
        sum.states,
        start.elapsed().as_secs_f64()
    );
}

fn seldom(sum: &Tally) -> ExitCode {
    let mut code = ExitCode::SUCCESS;
    let answers = REACHABLE
        .iter()
        .chain(&["0 stale", "0 not due", "0 false"])
        .chain(&OF_A_WRITER);
    let stories = stories::WANTED.iter();
    for (seen, asked) in answers
        .map(|answer| (answer, OFTEN))
        .chain(stories.map(|story| (story, SOMETIMES)))
    {
        let count = sum.count(seen);
        if count < asked {
            println!("SELDOM: {seen} was seen {count} times, {asked} are asked for");
            code = ExitCode::FAILURE;
        }
    }
    for operation in [
        "insert_active",
        "insert_vehicle",
        "delete",
        "begin_expiration",
        "commit_replacement",
    ] {
        if sum.changed_entries(operation) < OFTEN {
            println!("SELDOM: entries of boards that {operation} changed");
            code = ExitCode::FAILURE;
        }
    }
    let cases = writer::WANTED.map(|case| (CASES, case));
    let written = FEED_NAMES.map(|name| (WRITTEN, name));
    for (function, case) in cases.into_iter().chain(written) {
        let count = sum.of(function, case);
        if count < OFTEN {
            println!("SELDOM: {function}, {case} was seen {count} times, {OFTEN} are asked for");
            code = ExitCode::FAILURE;
        }
    }
    for never in ["11.0", "12.0", "14"] {
        if sum.count_plain(never) > 0 {
            println!("NEVER TO BE SEEN: answer {never}");
            code = ExitCode::FAILURE;
        }
    }
    code
}
