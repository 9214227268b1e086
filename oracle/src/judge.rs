// SPDX-License-Identifier: Apache-2.0
//! The original's word on every operation and read, in document 01's numbers, with the added
//! refusals around it: 12 before everything, 14 before the original is asked, 13 where it went
//! through and ended over a limit.

use std::{collections::BTreeSet, fmt::Write as _};

use crate::{
    answer::{Class, Outcome, Refusal, Seen, Told},
    board,
    model::{ACTIVE_LIMIT, Active, DEFUNCT_LIMIT, Defunct, Id, Operation, Read, State},
    original::{self, Call, Original},
    rules::broken_rule,
    wire,
};

/// One state, tested and put into the original once, for many questions.
pub struct Judge {
    state: State,
    /// The original with this state, or the lowest broken rule.
    original: Result<Original, u8>,
}

impl Judge {
    #[must_use]
    pub fn new(state: &State) -> Self {
        let original = match broken_rule(state) {
            None => Ok(Original::new(state)),
            Some(rule) => Err(rule),
        };
        Self {
            state: state.clone(),
            original,
        }
    }

    #[must_use]
    pub fn state(&self) -> &State {
        &self.state
    }

    /// Runs the original on a copy and reads out what it leaves, refusals too.
    #[must_use]
    pub fn apply(&self, operation: &Operation) -> Outcome {
        let mut original = match &self.original {
            Ok(original) => original.clone(),
            Err(rule) => return self.kept(Told::UnsoundState(*rule)),
        };
        let Some(call) = Call::new(operation) else {
            return self.kept(Told::BadList);
        };
        let (told, removed, expired) = original.call(call).read();
        let state = original.state();
        // Refusals end within the limits too: they leave the state, or only take entries away.
        if state.active.len() > ACTIVE_LIMIT || state.defunct.len() > DEFUNCT_LIMIT {
            return self.kept(Told::NoRoom);
        }
        Outcome {
            told,
            removed,
            expired,
            state,
        }
    }

    /// The read's answer. The count of links is added here, by a walk of our own.
    #[must_use]
    pub fn read(&mut self, read: &Read) -> Seen {
        let original = match &mut self.original {
            Ok(original) => original,
            Err(rule) => return Seen::Unsound(*rule),
        };
        match (read, original.read(read)) {
            (Read::CurrentHolder(record), Seen::Holder { subject, .. }) => Seen::Holder {
                subject,
                links: links(&self.state, record),
            },
            (_, seen) => seen,
        }
    }

    /// `prepare_runtime_update` with the generation before and after.
    #[must_use]
    pub fn prepare_runtime_update(&self, generation: u64) -> (Told, u64) {
        match &self.original {
            Ok(original) => original.clone().prepare_runtime_update(generation),
            Err(rule) => (Told::UnsoundState(*rule), generation),
        }
    }

    /// The state's board: 02, C-11.
    ///
    /// # Panics
    ///
    /// On a state that isn't sound.
    #[must_use]
    pub fn board(&self) -> Vec<u8> {
        match &self.original {
            Ok(original) => board::written(original),
            Err(rule) => panic!("rule {rule} is broken: {:?}", self.state),
        }
    }

    fn kept(&self, told: Told) -> Outcome {
        Outcome {
            told,
            removed: Vec::new(),
            expired: Vec::new(),
            state: self.state.clone(),
        }
    }
}

/// How many defunct entries the holder's walk passes after the given record: it ends at an
/// active lock, at an id that is nowhere, or at an id met before.
#[must_use]
pub fn links(state: &State, record: &Defunct) -> u32 {
    let mut met: BTreeSet<Id> = BTreeSet::new();
    let mut at = record.target;
    let mut passed = 0;
    while met.insert(at) && state.active_at(at).is_none() {
        let Some(entry) = state.defunct_at(at) else {
            break;
        };
        passed += 1;
        at = entry.target;
    }
    passed
}

/// The response class of a refusal number, by 001.
#[must_use]
pub fn response_class(number: u8) -> Option<Class> {
    original::response_class(number)
}

/// A spare adapter: its state and the sequence number it expects.
#[derive(Clone, Debug, PartialEq, Eq, Default)]
pub struct Spare {
    pub state: State,
    pub expected: u32,
}

/// What one feed step gives.
#[derive(Clone, Debug, PartialEq, Eq)]
pub struct Step {
    pub event: Event,
    /// Where the next record begins; the same place when none could be read.
    pub next: usize,
    pub spare: Spare,
}

#[derive(Clone, Debug, PartialEq, Eq)]
pub enum Event {
    /// 12 and 17 to 19: nothing was read.
    Refused(Refusal),
    /// 15, with the expected number.
    Repeat { sequence: u32, expected: u32 },
    /// 16, with the expected number.
    Ahead { sequence: u32, expected: u32 },
    /// Handed to the operation.
    Applied {
        sequence: u32,
        told: Told,
        removed: Vec<Active>,
        expired: Vec<Id>,
    },
}

impl Event {
    /// 01's number.
    #[must_use]
    pub fn number(&self) -> u8 {
        match self {
            Self::Refused(refusal) => refusal.number(),
            Self::Repeat { .. } => 15,
            Self::Ahead { .. } => 16,
            Self::Applied { told, .. } => told.number(),
        }
    }
}

/// One step over a feed from a place on.
#[must_use]
pub fn feed_step(spare: &Spare, feed: &[u8], at: usize) -> Step {
    step(&Judge::new(&spare.state), spare.expected, feed, at)
}

/// The same on a state that is in the judge already.
#[must_use]
pub fn step(judge: &Judge, expected: u32, feed: &[u8], at: usize) -> Step {
    let stay = |event, next| Step {
        event,
        next,
        spare: Spare {
            state: judge.state.clone(),
            expected,
        },
    };
    if let Err(rule) = judge.original {
        return stay(Event::Refused(Refusal::UnsoundState(rule)), at);
    }
    let record = match wire::read_feed(feed, at) {
        Ok(record) => record,
        Err(refusal) => return stay(Event::Refused(refusal), at),
    };
    let sequence = record.sequence;
    match sequence.wrapping_sub(expected) {
        0 => apply_record(judge, expected, &record),
        1..=2_147_483_647 => stay(Event::Ahead { sequence, expected }, record.next),
        _ => stay(Event::Repeat { sequence, expected }, record.next),
    }
}

/// A feed step on an image: the step and the next image, which is the same bytes where nothing
/// changed.
pub fn step_image(image: &[u8], feed: &[u8], at: usize) -> Result<(Step, Vec<u8>), Refusal> {
    let (state, expected) = wire::read_image(image)?;
    let step = feed_step(&Spare { state, expected }, feed, at);
    let next = wire::write_image(&step.spare.state, step.spare.expected)?;
    Ok((step, next))
}

fn apply_record(judge: &Judge, expected: u32, record: &wire::FeedRecord) -> Step {
    let Outcome {
        told,
        removed,
        expired,
        state,
    } = judge.apply(&record.operation);
    let moves = matches!(told.number(), 0..=11 | 13);
    Step {
        event: Event::Applied {
            sequence: record.sequence,
            told,
            removed,
            expired,
        },
        next: record.next,
        spare: Spare {
            state,
            expected: if moves {
                expected.wrapping_add(1)
            } else {
                expected
            },
        },
    }
}

/// Most bytes `replay` reads.
pub const REPLAY_LIMIT: usize = 65_536;

/// What the program `replay` prints for this input.
#[must_use]
pub fn replay(feed: &[u8]) -> String {
    play(Spare::default(), feed).0
}

/// Plays a feed to a spare: a line for each record, and the spare after the last one.
#[must_use]
pub fn play(mut spare: Spare, feed: &[u8]) -> (String, Spare) {
    if feed.len() > REPLAY_LIMIT {
        return ("long\n".to_owned(), spare);
    }
    let mut lines = String::new();
    let mut at = 0;
    while at < feed.len() {
        let step = feed_step(&spare, feed, at);
        let sequence = match step.event {
            Event::Refused(refusal) => {
                let _ = writeln!(lines, "bad {} {}", refusal.number(), refusal.place());
                break;
            }
            Event::Repeat { sequence, .. }
            | Event::Ahead { sequence, .. }
            | Event::Applied { sequence, .. } => sequence,
        };
        let state = &step.spare.state;
        let _ = writeln!(
            lines,
            "{sequence} {} {} {} {}",
            step.event.number(),
            state.revision,
            state.active.len(),
            state.defunct.len()
        );
        (spare, at) = (step.spare, step.next);
    }
    (lines, spare)
}
