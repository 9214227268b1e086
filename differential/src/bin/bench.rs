// SPDX-License-Identifier: Apache-2.0
//! Times the by-feed boundary beside the original, in one run: each operation at four sizes, and
//! the same without and with a board, and as a primary; a record written; and two feeds of 65,536
//! bytes, record by record and each in one call. For bench/stack it makes one call in a thread of a given size. A ratio is the original's time / the library's: above 1 the
//! library is faster. Beside the ratios stand the aims of docs/BENCH.md.
//!
//! Ours is `cablegorse_apply` whole: image read and tested, record read, operation, next image
//! and removed locks written. The original's is the operation alone on its own types, which
//! clones its state inside; states are cloned, arguments made and results dropped outside of the
//! timed part. Batches of both alternate, so that other work on the machine meets both alike.
//!
//! ```text
//! bench [MILLISECONDS A CELL]
//! bench stack                 names the calls, with their answers at the three sizes
//! bench stack BYTES CALL      makes one, by its place from 0, in a thread of so many bytes
//! bench call ROW SIZE TURNS   makes a call of the table so many times, for bench/copies; the row
//!                             after the last are the feeds, by apply and by follow: prints the
//!                             records of one turn
//! ```

use std::{
    env,
    hint::black_box,
    process::ExitCode,
    thread,
    time::{Duration, Instant},
};

use cablegorse::{
    Replica,
    library::{self, EXPIRED_LIMIT, IMAGE_LIMIT, RECORD_LIMIT, REMOVED_LIMIT},
};
use differential::writer;
use oracle::{
    asked::Asked,
    bench::{Cell, SIZES, operations, rows, state},
    board,
    generate::{self, Case, Profile, Rng},
    judge::Judge,
    model::{Coverage, Id, IdList, Operation, Scope, State},
    original::{Call, Original},
    wire,
};

/// Ratios that renewal and deletion are to reach, by size.
const AIMS: [f64; 4] = [0.09, 1.0, 3.0, 6.0];
/// Ratios that a feed followed in one call is to reach: on small states, on full ones.
const CHUNK_AIMS: [f64; 2] = [0.6, 20.0];
/// Calls timed together: enough to hide the clock, few enough to stay in the cache.
const BATCH: usize = 4;
/// Batches of records written that are timed together: one takes little more than the clock.
const WRITTEN: usize = 16;
const FEED_LIMIT: usize = 65_536;

fn main() -> ExitCode {
    let words: Vec<String> = env::args().skip(1).collect();
    let words: Vec<&str> = words.iter().map(String::as_str).collect();
    if words == ["stack"] {
        return name_calls();
    }
    if let ["stack", bytes, row] = words[..]
        && let (Ok(bytes), Ok(row)) = (bytes.parse(), row.parse())
    {
        return on_a_stack_of(bytes, row);
    }
    if let ["call", row, size, turns] = words[..]
        && let (Ok(row), Ok(size), Ok(turns)) = (row.parse(), size.parse(), turns.parse())
    {
        return calls(row, size, turns);
    }
    let Ok(cell) = words.first().map_or(Ok(300), |word| word.parse()) else {
        eprintln!(
            "bench [MILLISECONDS A CELL], bench stack [BYTES CALL], bench call ROW SIZE TURNS"
        );
        return ExitCode::from(2);
    };
    let time = Duration::from_millis(cell);
    operations_table(time);
    let boards = "without a board, with the image's, what it costs";
    beside_apply(boards, time, Ours::batch_with_boards);
    let primary = "applied, performed with its record, what that costs";
    beside_apply(primary, time, Ours::batch_as_a_primary);
    written_table(time);
    feeds(time * 4);
    ExitCode::SUCCESS
}

/// What the library is given for one operation, or to follow a chunk.
struct Ours {
    image: Vec<u8>,
    /// The image's own.
    board: Vec<u8>,
    call: Called,
    /// The operation's numbers and its list.
    asked: (library::Asked, Vec<u64>),
    record: Vec<u8>,
    next: Vec<u8>,
    removed: Vec<u8>,
    expired: Vec<u8>,
    sent: Vec<u8>,
}

/// What is called with it.
enum Called {
    Record,
    Chunk,
    Primary,
    Deletion([u64; 2], (u8, u8), u16),
}

impl Ours {
    fn new(state: &State, operation: &Operation) -> Self {
        let call = match operation {
            Operation::DeleteDefunct { id, scope, subject } => {
                let scope = match scope {
                    Scope::Vehicle => (0, 0),
                    Scope::Ecu(ecu) => (1, *ecu),
                    Scope::Group(group) => (2, *group),
                };
                Called::Deletion(id.words(), scope, *subject)
            }
            _ => Called::Record,
        };
        Self::of(state, operation, call)
    }

    fn of(state: &State, operation: &Operation, call: Called) -> Self {
        let (numbers, list) = Asked::of(operation).unwrap_or_default();
        Self {
            image: wire::write_image(state, 0).expect("a sound state"),
            board: board::board(state),
            call,
            asked: (writer::asked(&numbers), list),
            record: wire::write_feed(operation, 0).unwrap_or_default(),
            next: vec![0; IMAGE_LIMIT],
            removed: vec![0; REMOVED_LIMIT],
            expired: vec![0; EXPIRED_LIMIT],
            sent: vec![0; RECORD_LIMIT],
        }
    }

    fn call(&mut self) -> u32 {
        let image = black_box(&self.image[..]);
        let told = match self.call {
            Called::Record => {
                library::apply(
                    image,
                    black_box(&self.record),
                    0,
                    &mut self.next,
                    &mut self.removed,
                    &mut self.expired,
                )
                .told
            }
            Called::Chunk => library::follow(image, &self.record, &mut self.next).told,
            Called::Primary => return self.perform(),
            Called::Deletion(id, scope, subject) => {
                library::delete_defunct(image, id, scope, subject, &mut self.next).told
            }
        };
        told.number
    }

    /// The operation, and its record.
    fn perform(&mut self) -> u32 {
        let (asked, list) = &self.asked;
        library::perform(
            black_box(&self.image),
            black_box(asked),
            list,
            &mut self.next,
            &mut self.removed,
            &mut self.expired,
            &mut self.sent,
        )
        .told
        .number
    }

    /// The record with the image's board.
    fn call_with(&mut self, board: &mut [u8]) -> u32 {
        library::apply_board(
            black_box(&self.image),
            black_box(board),
            black_box(&self.record),
            0,
            &mut self.next,
            &mut self.removed,
            &mut self.expired,
        )
        .told
        .number
    }

    /// A board for each call, since a call leaves the next image's.
    fn batch_with_boards(&mut self) -> Duration {
        let mut boards = vec![self.board.clone(); BATCH];
        let start = Instant::now();
        for board in &mut boards {
            black_box(self.call_with(board));
        }
        start.elapsed()
    }

    fn batch_as_a_primary(&mut self) -> Duration {
        let start = Instant::now();
        for _ in 0..BATCH {
            black_box(self.perform());
        }
        start.elapsed()
    }

    fn batch(&mut self) -> Duration {
        let start = Instant::now();
        for _ in 0..BATCH {
            black_box(self.call());
        }
        start.elapsed()
    }
}

fn original_batch(original: &Original, operation: &Operation) -> Duration {
    let mut states: Vec<Original> = (0..BATCH).map(|_| original.clone()).collect();
    let calls: Vec<Call> = (0..BATCH).filter_map(|_| Call::new(operation)).collect();
    let mut replies = Vec::with_capacity(BATCH);
    let start = Instant::now();
    for (state, call) in states.iter_mut().zip(calls) {
        replies.push(black_box(state.call(black_box(call))));
    }
    start.elapsed()
}

/// The batch that a tenth are faster than, in ns a call: other work disturbs it least.
fn tenth(mut times: Vec<Duration>) -> f64 {
    times.sort_unstable();
    times[times.len() / 10].as_nanos() as f64 / BATCH as f64
}

/// What a cell took in ns a call, the library and the original, and the library's answer.
struct Times {
    ours: f64,
    original: f64,
    answer: u32,
}

impl Times {
    fn ratio(&self) -> f64 {
        self.original / self.ours
    }

    fn shown(&self) -> String {
        let note = match self.answer {
            0 => String::new(),
            number => format!("({number})"),
        };
        let (ours, original) = (self.ours, self.original);
        format!("{ours:.0} {original:.0} {:.2}{note}", self.ratio())
    }
}

fn timed(of: &Cell, time: Duration) -> Times {
    let mut ours = Ours::new(&of.state, &of.operation);
    let original = Original::new(&of.state);
    let answer = ours.call();
    let (mut mine, mut theirs) = (Vec::new(), Vec::new());
    let start = Instant::now();
    while start.elapsed() < time || mine.len() < 50 {
        mine.push(ours.batch());
        theirs.push(original_batch(&original, &of.operation));
    }
    Times {
        ours: tenth(mine),
        original: tenth(theirs),
        answer,
    }
}

/// A ratio beside its aim.
fn held(ratio: f64, aim: f64) -> String {
    if ratio < aim {
        format!(
            "{ratio:.2} of {aim}, {:.1}% short",
            100.0 - 100.0 * ratio / aim
        )
    } else {
        format!("{ratio:.2} of {aim}, met")
    }
}

fn heading(title: &str) {
    print!("{title:<22}");
    for (active, defunct) in SIZES {
        print!("{:>24}", format!("{active}/{defunct}"));
    }
    println!();
}

fn operations_table(cell: Duration) {
    println!("ns a call (tenth percentile): library by feed, original, original / library;");
    println!("insertions at 63 active locks for 64, replacement at 127 defunct ones for 128");
    heading("");
    let mut aims = Vec::new();
    for (name, cells) in rows() {
        print!("{name:<22}");
        let mut row = Vec::new();
        for of in &cells {
            let times = timed(of, cell);
            print!("{:>24}", times.shown());
            row.push(times.ratio());
        }
        println!();
        if matches!(name, "renew" | "delete") {
            aims.push((name, row));
        }
    }
    println!();
    heading("original / library");
    for (name, row) in aims {
        print!("{name:<22}");
        for (ratio, aim) in row.into_iter().zip(AIMS) {
            print!("{:>24}", held(ratio, aim));
        }
        println!();
    }
    println!();
}

/// What something else costs a record: its batches and those of `cablegorse_apply` alternate.
fn beside_apply(title: &str, cell: Duration, other: fn(&mut Ours) -> Duration) {
    println!("ns a record (tenth percentile): {title}");
    heading("");
    for (name, cells) in rows() {
        if name == "delete_defunct" {
            continue;
        }
        print!("{name:<22}");
        for of in &cells {
            let mut ours = Ours::new(&of.state, &of.operation);
            let (mut plain, mut others) = (Vec::new(), Vec::new());
            let start = Instant::now();
            while start.elapsed() < cell || plain.len() < 50 {
                plain.push(ours.batch());
                others.push(other(&mut ours));
            }
            let (plain, other) = (tenth(plain), tenth(others));
            let cost = other - plain;
            print!("{:>24}", format!("{plain:.0} {other:.0} {cost:+.0}"));
        }
        println!();
    }
    println!();
}

/// `cablegorse_write_record` alone: no state is lent, and so there are no sizes.
fn written_table(cell: Duration) {
    println!("ns a record written (tenth percentile), and its bytes");
    let mut timed = operations(64, 128);
    timed.retain(|operation| operation.kind().is_some());
    let longest = timed.iter().cloned().map(with_64_ids).collect::<Vec<_>>();
    timed.extend(longest.into_iter().flatten());
    for operation in timed {
        let mut ours = Ours::new(&State::default(), &operation);
        let mut times = Vec::new();
        let start = Instant::now();
        while start.elapsed() < cell {
            let start = Instant::now();
            for _ in 0..BATCH * WRITTEN {
                let (asked, list) = black_box(&ours.asked);
                black_box(library::write_record(0, asked, list, &mut ours.sent));
            }
            times.push(start.elapsed());
        }
        let name = format!("{}, {}", operation.name(), ours.record.len());
        println!("{name:<28}{:>8.1}", tenth(times) / WRITTEN as f64);
    }
    println!();
}

/// The same with as long a list as a record holds, where it has one.
fn with_64_ids(mut operation: Operation) -> Option<Operation> {
    let (Operation::InsertVehicle { children: list, .. }
    | Operation::CommitReplacement { roots: list, .. }) = &mut operation
    else {
        return None;
    };
    *list = IdList(vec![7; 128]);
    Some(operation)
}

/// A feed of at most 65,536 bytes from empty, as bytes and as operations.
struct Feed {
    bytes: Vec<u8>,
    operations: Vec<Operation>,
    case: Case,
    rng: Rng,
}

impl Feed {
    fn new() -> Self {
        let mut rng = Rng::new(5);
        let mut case = Case::of(&mut rng, Profile::Tiny);
        case.state = State::default();
        Self {
            bytes: Vec::new(),
            operations: Vec::new(),
            case,
            rng,
        }
    }

    /// Adds an operation; false when it doesn't fit any more.
    fn add(&mut self, operation: Operation) -> bool {
        let Some(record) = wire::write_feed(&operation, self.operations.len() as u32) else {
            return true;
        };
        if self.bytes.len() + record.len() > FEED_LIMIT {
            return false;
        }
        self.bytes.extend(record);
        self.case.state = Judge::new(&self.case.state).apply(&operation).state;
        self.operations.push(operation);
        true
    }

    /// Any operations on a few ids and ECUs, refusals among them: states stay small.
    fn mixed() -> Self {
        let mut feed = Self::new();
        loop {
            let operation = generate::operation(&mut feed.rng, &feed.case);
            if !feed.add(operation) {
                return feed;
            }
        }
    }

    /// 64 ECU locks are taken, then renewed by turns; now and then one is replaced.
    fn busy() -> Self {
        let mut feed = Self::new();
        for lock in state(64, 0).active {
            feed.add(Operation::InsertActive { lock });
        }
        for turn in 0u64.. {
            let place = (turn as usize * 7) % feed.case.state.active.len();
            let old = feed.case.state.active[place];
            let mut lock = old;
            lock.lock.id = Id::from_words(turn, 9);
            lock.lock.subject += 10;
            let fits = feed.add(if turn.is_multiple_of(8) {
                Operation::CommitReplacement {
                    roots: IdList::of(&[old.lock.id]),
                    lock,
                    broken_by: 1,
                    broken_at: turn,
                }
            } else {
                Operation::Renew {
                    id: old.lock.id,
                    expires: old.expires + 1,
                    now: 1,
                    metadata: None,
                }
            });
            if !fits {
                break;
            }
        }
        feed
    }
}

/// The spare after the feed, record by record or in one call, and what it took.
fn spared(feed: &Feed, whole: bool) -> (Replica, Duration) {
    let mut spare = Replica::empty();
    let start = Instant::now();
    if whole {
        black_box(spare.follow(&feed.bytes));
    } else {
        let mut at = 0;
        while at < feed.bytes.len() {
            at = black_box(spare.apply(&feed.bytes, at)).place;
        }
    }
    (spare, start.elapsed())
}

fn originals(feed: &Feed) -> Duration {
    let mut original = Original::new(&State::default());
    let calls: Vec<Call> = feed.operations.iter().filter_map(Call::new).collect();
    let mut replies = Vec::with_capacity(calls.len());
    let start = Instant::now();
    for call in calls {
        replies.push(black_box(original.call(call)));
    }
    start.elapsed()
}

/// The best of each, in turns, until the time is up.
fn feeds(time: Duration) {
    println!("records a second, a feed from empty: by apply, by follow in one call, the original");
    let feeds = [
        ("mixed, small states", Feed::mixed()),
        ("64 locks held", Feed::busy()),
    ];
    for ((name, feed), aim) in feeds.into_iter().zip(CHUNK_AIMS) {
        let mut best = [Duration::MAX; 3];
        let start = Instant::now();
        let mut ends = Replica::empty();
        while start.elapsed() < time {
            let (one, by_record) = spared(&feed, false);
            let (other, in_one) = spared(&feed, true);
            assert_eq!(one, other, "the same feed, another state");
            for (least, took) in best.iter_mut().zip([by_record, in_one, originals(&feed)]) {
                *least = took.min(*least);
            }
            ends = other;
        }
        let count = feed.operations.len() as f64;
        let [apply, follow, original] = best.map(|took| count / took.as_secs_f64());
        println!(
            "{name} ({} bytes, {count} records, ends at {}/{}): {apply:.0}, {follow:.0}, {original:.0}",
            feed.bytes.len(),
            ends.active_count(),
            ends.defunct_count(),
        );
        println!(
            "    library / original: apply {:.2}; follow {}",
            apply / original,
            held(follow / original, aim),
        );
    }
    println!();
}

fn calls(row: usize, size: usize, turns: usize) -> ExitCode {
    let rows = rows();
    let mut records = 1;
    if let Some((_, cells)) = rows.get(row) {
        let mut ours = Ours::new(&cells[size].state, &cells[size].operation);
        for _ in 0..turns {
            black_box(ours.call());
        }
    } else {
        let feed = if size < 2 {
            Feed::mixed()
        } else {
            Feed::busy()
        };
        records = feed.operations.len();
        for _ in 0..turns {
            black_box(spared(&feed, size % 2 == 1));
        }
    }
    println!("{records}");
    ExitCode::SUCCESS
}

/// The timed operations, then two that supersede an entry: they go deepest.
fn deep(active: usize, defunct: usize) -> Vec<(&'static str, Operation)> {
    let timed = operations(active, defunct);
    let mut rows: Vec<_> = timed.iter().map(|o| (o.name(), o.clone())).collect();
    for operation in timed {
        let name = match operation {
            Operation::InsertActive { .. } => "insert_active, superseding",
            Operation::CommitReplacement { .. } => "commit_replacement, superseding",
            _ => continue,
        };
        rows.push((name, superseding(operation, active, defunct)));
    }
    rows
}

/// The same by the subject of a defunct entry, over that entry's ECU too.
fn superseding(mut operation: Operation, active: usize, defunct: usize) -> Operation {
    let entry = state(active, defunct).defunct.pop();
    if let Operation::InsertActive { lock } | Operation::CommitReplacement { lock, .. } =
        &mut operation
        && let Some(entry) = entry
        && let (Scope::Ecu(own), Scope::Ecu(shed)) = (lock.lock.scope, entry.lock.scope)
    {
        lock.lock.scope = Scope::Group(1);
        lock.lock.coverage = Coverage::of(&[own, shed]);
        lock.lock.subject = entry.lock.subject;
    }
    operation
}

/// One operation on the largest states and a small one; past the last all of them, followed, and
/// then all of them performed with their records.
fn cells(row: usize) -> Vec<Ours> {
    let mut cells = Vec::new();
    for (active, defunct) in [(63, 128), (64, 128), (1, 0)] {
        let (from, rows) = (state(active, defunct), deep(active, defunct));
        match rows.get(row) {
            Some((_, operation)) => cells.push(Ours::new(&from, operation)),
            None if row == rows.len() => {
                cells.extend(rows.iter().map(|(_, o)| Ours::of(&from, o, Called::Chunk)));
            }
            None => cells.extend(
                rows.iter()
                    .map(|(_, o)| Ours::of(&from, o, Called::Primary)),
            ),
        }
    }
    cells
}

/// A call that is refused may not go as deep as one that is done.
fn name_calls() -> ExitCode {
    for (row, (name, _)) in deep(1, 0).iter().enumerate() {
        let mut cells = cells(row);
        let answers: Vec<String> = cells.iter_mut().map(|c| c.call().to_string()).collect();
        println!("{name}: {}", answers.join(", "));
    }
    println!("follow, each of them");
    println!("perform, each of them");
    ExitCode::SUCCESS
}

/// The calls of one row in a thread with this much stack.
fn on_a_stack_of(bytes: usize, row: usize) -> ExitCode {
    let mut cells = cells(row);
    let work = move || cells.iter_mut().map(Ours::call).sum::<u32>();
    let Ok(thread) = thread::Builder::new().stack_size(bytes).spawn(work) else {
        return ExitCode::FAILURE;
    };
    match thread.join() {
        Ok(_) => ExitCode::SUCCESS,
        Err(_) => ExitCode::FAILURE,
    }
}
