// SPDX-License-Identifier: Apache-2.0
//! Runs random sound states and operations through the judge and checks it against itself:
//! states stay sound, images come back, the restated document 01 agrees, stories are kept where
//! 02 says so, boards are those of the restated 02, and every answer and every change of a story
//! is seen.
//!
//! ```text
//! selfcheck [STATES] [SEED] [OPERATIONS A STATE]
//! selfcheck small [STEP]    every STEP-th state of the tiny universe, every operation on it
//! ```

use std::{collections::BTreeMap, env, process::ExitCode};

use oracle::{
    answer::{Outcome, Refusal, Seen},
    board,
    generate::{self, Case, Profile, Rng},
    judge::{self, Event, Judge, Spare},
    model::{ACTIVE_LIMIT, Coverage, DEFUNCT_LIMIT, Id, Operation, Scope, State},
    original::Original,
    paper,
    rules::broken_rule,
    small,
    stories::{self, Retold},
    wire,
};

/// How often each (function, answer) was seen.
#[derive(Default)]
struct Tally(BTreeMap<(String, String), u64>);

impl Tally {
    fn see(&mut self, function: &str, answer: impl Into<String>) {
        *self
            .0
            .entry((function.to_owned(), answer.into()))
            .or_default() += 1;
    }

    fn count(&self, answer: &str) -> u64 {
        self.0
            .iter()
            .filter(|((_, a), _)| a == answer)
            .map(|(_, n)| n)
            .sum()
    }

    fn print(&self) {
        let mut last = "";
        for ((function, answer), count) in &self.0 {
            if function != last {
                println!("{function}");
                last = function;
            }
            println!("  {answer:<28} {count:>10}");
        }
    }
}

struct Run {
    rng: Rng,
    seen: Tally,
    operations: u64,
}

fn main() -> ExitCode {
    let mut arguments: Vec<String> = env::args().skip(1).collect();
    let small = arguments.first().is_some_and(|first| first == "small");
    if small {
        arguments.remove(0);
    }
    let mut numbers = arguments.iter().map(|text| text.parse::<u64>());
    let mut number = |default| match numbers.next() {
        None => default,
        Some(Ok(given)) => given,
        Some(Err(_)) => {
            eprintln!("selfcheck [STATES] [SEED] [OPERATIONS A STATE] | small [STEP]");
            std::process::exit(2)
        }
    };
    if small {
        // Odd, so that both revisions come up: they alternate.
        return small_universe(number(997).max(1));
    }
    let (states, seed, each) = (number(10_000), number(1), number(10));
    let mut run = Run {
        rng: Rng::new(seed),
        seen: Tally::default(),
        operations: 0,
    };
    for class in 0..=255 {
        assert_eq!(
            judge::response_class(class),
            paper::response_class(class),
            "class of {class}"
        );
    }
    for _ in 0..states {
        run.state(each);
    }
    run.seen.print();
    println!(
        "{states} states, {} operations, seed {seed}",
        run.operations
    );
    run.all_seen()
}

/// Every operation on every `step`-th state.
fn small_universe(step: u64) -> ExitCode {
    let mut run = Run {
        rng: Rng::new(0),
        seen: Tally::default(),
        operations: 0,
    };
    let (states, operations) = (small::states(), small::operations());
    for state in states.iter().step_by(step as usize) {
        let judge = Judge::new(state);
        for operation in &operations {
            run.operation(Profile::Tiny, state, &judge, operation);
        }
    }
    run.seen.print();
    println!(
        "every {step}th of {} states, {} operations each, {} in all",
        states.len(),
        operations.len(),
        run.operations
    );
    ExitCode::SUCCESS
}

impl Run {
    fn state(&mut self, each: u64) {
        let case = Case::draw(&mut self.rng);
        assert_eq!(broken_rule(&case.state), None, "{case:?}");
        self.describe(&case);
        self.round_trip(&case.state);
        let mut judge = Judge::new(&case.state);
        for _ in 0..each {
            let operation = generate::operation(&mut self.rng, &case);
            self.operation(case.profile, &case.state, &judge, &operation);
        }
        for kind in 0..14 {
            self.read(&case, &mut judge, kind);
        }
        self.prepare(&case, &judge);
        self.unsound(&case);
        self.feed(&case);
    }

    fn operation(
        &mut self,
        profile: Profile,
        before: &State,
        judge: &Judge,
        operation: &Operation,
    ) {
        let outcome = judge.apply(operation);
        self.operations += 1;
        let told = &outcome.told;
        self.seen.see(operation.name(), told.label());
        if told.number() == 13 {
            self.seen.see(
                "NoRoom by profile",
                format!("{} {:?}", operation.name(), profile),
            );
        }
        let at = || format!("{operation:?}\non {:?}\ngives {outcome:?}", before);
        assert_eq!(
            broken_rule(&outcome.state),
            None,
            "an unsound result: {}",
            at()
        );
        assert!(Original::new(&outcome.state).is_valid(), "{}", at());
        check_kept(before, operation, &outcome);
        let paper = paper::apply(before, operation);
        assert_eq!(outcome, paper, "01 and the original differ: {}", at());
        self.stories(before, operation, &outcome.state);
        self.boards(before, operation, &outcome.state);
    }

    /// The board before and after, and which entries changed: 02, C-11.
    fn boards(&mut self, before: &State, operation: &Operation, after: &State) {
        if before == after {
            return;
        }
        let boards = [before, after].map(board::board);
        assert_eq!(boards, [before, after].map(paper::board), "{operation:?}");
        let entries = board::changed_by(&board::moved(before, after), &boards[0], &boards[1]);
        let changed = match entries {
            0 => "no entry changed",
            256 => "every entry changed",
            _ => "some entries changed",
        };
        self.seen
            .see("boards", format!("{}: {changed}", operation.name()));
    }

    /// What the original tells of every remaining entry, before and after: 02, C-20.
    fn stories(&mut self, before: &State, operation: &Operation, after: &State) {
        if before == after {
            return;
        }
        let (mut old, mut new) = (Judge::new(before), Judge::new(after));
        for entry in &after.defunct {
            let id = entry.lock.id;
            let was = stories::told(&mut old, id);
            let now = stories::told(&mut new, id).expect("it remains");
            let retold = Retold::of(was, now);
            retold.check(operation, before, after);
            self.seen
                .see("stories", retold.label(operation, before, after));
        }
    }

    fn read(&mut self, case: &Case, judge: &mut Judge, kind: usize) {
        let read = generate::read_of(&mut self.rng, case, kind);
        let seen = judge.read(&read);
        let paper = paper::read(&case.state, &read);
        assert_eq!(
            seen, paper,
            "01 and the original differ: {read:?} on {:?}",
            case.state
        );
        self.seen.see(read.name(), label(&seen));
    }

    fn prepare(&mut self, case: &Case, judge: &Judge) {
        let generation = [0, 1, u64::MAX - 1, u64::MAX][self.rng.below(4)];
        let answer = judge.prepare_runtime_update(generation);
        assert_eq!(
            answer,
            paper::prepare_runtime_update(&case.state, generation)
        );
        self.seen.see("prepare_runtime_update", answer.0.label());
    }

    /// An accepted image writes back as the same bytes, and damaged ones get one answer.
    fn round_trip(&mut self, state: &State) {
        let expected = self.rng.word() as u32;
        let image = wire::write_image(state, expected).expect("a sound state");
        assert_eq!(
            image.len(),
            20 + 91 * state.active.len() + 104 * state.defunct.len()
        );
        assert_eq!(wire::read_image(&image), Ok((state.clone(), expected)));
        for _ in 0..4 {
            let mut bytes = image.clone();
            generate::damage(&mut self.rng, &mut bytes);
            let answer = match wire::read_image(&bytes) {
                Ok((state, expected)) => {
                    assert_eq!(wire::write_image(&state, expected).as_ref(), Ok(&bytes));
                    "0".to_owned()
                }
                Err(refusal) => refusal_label(&refusal),
            };
            self.seen.see("read_image (damaged)", answer);
        }
    }

    /// 12 with each rule; the original's own test agrees with rules 1 to 6.
    fn unsound(&mut self, case: &Case) {
        let state = generate::unsound(&mut self.rng, case);
        let rule = broken_rule(&state);
        self.seen.see(
            "sound-state test (spoiled)",
            rule.map_or("sound".to_owned(), |r| format!("12.{r}")),
        );
        let operation = generate::operation(&mut self.rng, case);
        let outcome = Judge::new(&state).apply(&operation);
        assert_eq!(outcome.told.number() == 12, rule.is_some());
        assert_eq!(outcome, paper::apply(&state, &operation));
        if rule != Some(0) && rule != Some(2) {
            // Rules 0 and 2 can't be broken by what the original's maps hold.
            let ours = matches!(rule, Some(1 | 3..=6));
            assert_eq!(
                Original::new(&state).is_valid(),
                !ours,
                "rule {rule:?} of {state:?}"
            );
        }
    }

    fn feed(&mut self, case: &Case) {
        if case.profile != Profile::Tiny || self.rng.percent(70) {
            return;
        }
        let expected = [0, 5, u32::MAX, u32::MAX - 3][self.rng.below(4)];
        let feed = generate::feed(&mut self.rng, case, expected, 12);
        let mut spare = Spare {
            state: case.state.clone(),
            expected,
        };
        let mut at = 0;
        while at < feed.len() {
            let step = judge::feed_step(&spare, &feed, at);
            self.seen.see("feed", step.event.number().to_string());
            check_step(&spare, &step);
            if matches!(step.event, Event::Refused(_)) {
                break;
            }
            check_written_back(&feed, at, step.next);
            (spare, at) = (step.spare, step.next);
        }
    }

    /// What the random states are like, so that thin spots show.
    fn describe(&mut self, case: &Case) {
        let state = &case.state;
        self.seen
            .see("states", format!("profile {:?}", case.profile));
        let vehicle = state.holder_of(Scope::Vehicle);
        let facts = [
            (
                "half-vehicle lock",
                vehicle.is_some_and(|a| a.lock.coverage != Coverage::Vehicle),
            ),
            (
                "whole-vehicle lock",
                vehicle.is_some_and(|a| a.lock.coverage == Coverage::Vehicle),
            ),
            ("children", state.active.iter().any(|a| a.parent.is_some())),
            (
                "narrow lock, whole coverage",
                state.active.iter().any(|a| {
                    a.lock.scope != Scope::Vehicle && a.lock.coverage == Coverage::Vehicle
                }),
            ),
            ("64 active", state.active.len() == ACTIVE_LIMIT),
            ("128 defunct", state.defunct.len() == DEFUNCT_LIMIT),
            (
                "64 active and 128 defunct",
                state.active.len() == ACTIVE_LIMIT && state.defunct.len() == DEFUNCT_LIMIT,
            ),
            (
                "zero id",
                state.active.iter().any(|a| a.lock.id == Id::default()),
            ),
            ("last revision", state.revision == u64::MAX),
            ("last revision but one", state.revision == u64::MAX - 1),
            (
                "chain over 100 links",
                state.defunct.iter().any(|d| judge::links(state, d) > 100),
            ),
        ];
        for (fact, holds) in facts {
            if holds {
                self.seen.see("states", fact);
            }
        }
    }

    fn all_seen(&self) -> ExitCode {
        let wanted = [
            "0",
            "0 stale",
            "0 not due",
            "0 false",
            "1",
            "2",
            "3",
            "4",
            "5",
            "6",
            "7",
            "8",
            "9",
            "10",
            "11.1",
            "11.2",
            "11.3",
            "11.4",
            "13",
            "14",
            "15",
            "16",
            "24",
            "25",
            "26",
        ];
        let mut code = ExitCode::SUCCESS;
        for answer in wanted.iter().chain(&stories::WANTED) {
            if self.seen.count(answer) < 20 {
                println!("seldom seen: {answer}");
                code = ExitCode::FAILURE;
            }
        }
        assert_eq!(self.seen.count("11.0"), 0, "an Invariant without a reason");
        code
    }
}

/// 01's table: a refusal keeps the state, except that 8 leaves defunct entries gone.
fn check_kept(before: &State, operation: &Operation, outcome: &Outcome) {
    let sheds = matches!(
        operation,
        Operation::AcknowledgeDefunct { .. }
            | Operation::ExpireDefunct { .. }
            | Operation::DeleteDefunct { .. }
    );
    match outcome.told.number() {
        0 => {
            assert!(outcome.state.revision == before.revision + u64::from(outcome.state != *before))
        }
        8 if sheds => {
            assert_eq!(outcome.state.revision, u64::MAX);
            assert!(outcome.state.defunct.len() < before.defunct.len());
        }
        _ => {
            assert_eq!(outcome.state, *before);
            assert!(outcome.removed.is_empty() && outcome.expired.is_empty());
        }
    }
}

/// Nothing but an applied record changes the spare, and that moves the number on by one.
fn check_step(before: &Spare, step: &judge::Step) {
    match &step.event {
        Event::Applied { sequence, .. } => {
            assert_eq!(*sequence, before.expected);
            assert_eq!(step.spare.expected, before.expected.wrapping_add(1));
        }
        _ => assert_eq!(step.spare, *before),
    }
}

/// Every record the reader accepts is written back byte for byte.
fn check_written_back(feed: &[u8], at: usize, next: usize) {
    let record = wire::read_feed(feed, at).expect("just read");
    let written = wire::write_feed(&record.operation, record.sequence);
    assert_eq!(written.as_deref(), Some(&feed[at..next]));
}

fn refusal_label(refusal: &Refusal) -> String {
    match refusal {
        Refusal::UnsoundState(rule) => format!("12.{rule}"),
        other => other.number().to_string(),
    }
}

/// The shape of a read's answer, for the tally. Words, so that they don't count as numbers.
fn label(seen: &Seen) -> String {
    match seen {
        Seen::Active(None)
        | Seen::Defunct(None)
        | Seen::TesterPresent(None)
        | Seen::Subject(None) => "none".to_owned(),
        Seen::Active(Some(_)) | Seen::Defunct(Some(_)) | Seen::Subject(Some(_)) => "one".to_owned(),
        Seen::TesterPresent(Some(kind)) => format!("{kind:?}")
            .split('(')
            .next()
            .unwrap_or_default()
            .to_owned(),
        Seen::Ids(ids) => format!("{} ids", if ids.is_empty() { "no" } else { "some" }),
        Seen::Flag(flag) => flag.to_string(),
        Seen::Holder { links, .. } => match links {
            0..=2 => format!("{links} links"),
            3..=99 => "3 to 99 links".to_owned(),
            100..=126 => "100 to 126 links".to_owned(),
            _ => format!("{links} links"),
        },
        Seen::Revision(_) => "a number".to_owned(),
        Seen::Unsound(rule) => format!("12.{rule}"),
    }
}
