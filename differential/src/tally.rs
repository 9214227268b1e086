// SPDX-License-Identifier: Apache-2.0
//! How often each answer was seen.

use std::collections::BTreeMap;

use oracle::boundary::Told;

/// Counts by function and answer.
#[derive(Clone, Debug, Default)]
pub struct Tally {
    seen: BTreeMap<(&'static str, String), u64>,
    /// Operations handed to the library.
    pub operations: u64,
    /// Other calls.
    pub calls: u64,
    /// Sound states.
    pub states: u64,
}

/// Under which entries of boards are counted, by the operation that changed them.
pub const ENTRIES: &str = "entries of boards that changed";

/// Under which cases of the writer are counted.
pub const CASES: &str = "the writer's cases";

/// Under which the records that it wrote are counted, by operation.
pub const WRITTEN: &str = "records written";

/// Calls of these ask once more what a plain call was asked.
const AGAIN: [&str; 3] = ["board", "perform", "write_record"];
/// Answers that only those calls give.
const THEIRS: [&str; 3] = ["14", "28", "29"];

impl Tally {
    /// One more of this answer.
    pub fn see(&mut self, function: &'static str, answer: String) {
        self.see_many(function, answer, 1);
    }

    /// So many more of it.
    pub fn see_many(&mut self, function: &'static str, answer: String, count: u64) {
        *self.seen.entry((function, answer)).or_default() += count;
    }

    /// Adds another thread's counts.
    pub fn add(&mut self, other: &Self) {
        for (key, count) in &other.seen {
            *self.seen.entry(key.clone()).or_default() += count;
        }
        self.operations += other.operations;
        self.calls += other.calls;
        self.states += other.states;
    }

    /// How often an answer was seen, whatever the function. A call that is made once more, with a
    /// board or as a primary, isn't counted again but for the answers that only such a call gives.
    #[must_use]
    pub fn count(&self, answer: &str) -> u64 {
        let again = |function: &str| AGAIN.iter().any(|word| function.contains(word));
        self.seen
            .iter()
            .filter(|((function, seen), _)| {
                seen == answer && (THEIRS.contains(&answer) || !again(function))
            })
            .map(|(_, count)| count)
            .sum()
    }

    /// The same without the calls that are made once more, whatever the answer.
    #[must_use]
    pub fn count_plain(&self, answer: &str) -> u64 {
        self.seen
            .iter()
            .filter(|((function, seen), _)| {
                seen == answer && !AGAIN.iter().any(|word| function.contains(word))
            })
            .map(|(_, count)| count)
            .sum()
    }

    /// How many entries of boards changed with an operation.
    #[must_use]
    pub fn changed_entries(&self, operation: &str) -> u64 {
        self.of(ENTRIES, operation)
    }

    /// How often a function gave an answer.
    #[must_use]
    pub fn of(&self, function: &'static str, answer: &str) -> u64 {
        let key = (function, answer.to_owned());
        self.seen.get(&key).copied().unwrap_or_default()
    }

    /// The whole distribution, a line for each function and answer.
    pub fn print(&self) {
        let mut last = "";
        for ((function, answer), count) in &self.seen {
            if *function != last {
                println!("{function}");
                last = function;
            }
            println!("  {answer:<46} {count:>12}");
        }
    }
}

/// Number, and the reason of 11, the rule of 12 and a 7 at no ECU, which are answers of their own.
#[must_use]
pub fn label(told: &Told) -> String {
    match told.number {
        7 if told.values[2] == 0 => "7 no ECU".to_owned(),
        11 | 12 => format!("{}.{}", told.number, told.values[0]),
        number => number.to_string(),
    }
}

/// Every answer that can be had through the boundary where no record is written. 14 can't: records
/// hold whole ids. 12 with rule 0 can't: what breaks it in an image is 19 or 20. 11.0 is proved
/// never to be given.
pub const REACHABLE: [&str; 40] = [
    "0", "1", "2", "3", "4", "5", "6", "7", "7 no ECU", "8", "9", "10", "11.1", "11.2", "11.3",
    "11.4", "12.1", "12.2", "12.3", "12.4", "12.5", "12.6", "12.7", "12.8", "12.9", "13", "15",
    "16", "17", "18", "19", "20", "21", "22", "23", "24", "25", "26", "27", "28",
];

/// Answers that only the calls give that write a record, which take any list.
pub const OF_A_WRITER: [&str; 2] = ["14", "29"];
