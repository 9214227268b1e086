// SPDX-License-Identifier: Apache-2.0
//! The spare's side of one round: follow a primary over a bad link until it is killed, take
//! over, and hold the spare to the primary's book.

use std::{
    env, fs,
    io::{self, Read, Write},
    path::Path,
    process::{Child, ChildStdin, Command, Stdio},
    sync::{Arc, Mutex},
    thread,
    time::Duration,
};

use cablegorse::{
    Active, Coverage, Lock, LockId, Operation, Overlap, Refusal, Replica, Run, Scope,
    library::{self, BOARD_BYTES},
};

use drill::{
    link::{self, Link, Weather},
    rng::Rng,
    work,
};

use crate::wire::{Entry, Made, Wish, records, sequence};

/// What a round, or many, saw.
#[derive(Default)]
pub struct Sums {
    pub takeovers: u64,
    pub made: u64,
    pub applied: u64,
    pub repeats: u64,
    pub aheads: u64,
    pub link: link::Done,
    pub resends: u64,
    pub chunks: u64,
    pub cut: u64,
    pub torn: u64,
    pub behind: u64,
    pub most_behind: u64,
    pub wraps: u64,
    pub refused_rivals: u64,
    pub boards: u64,
    pub boards_of_two: u64,
}

/// A round's outcome: why it failed.
pub type Outcome = Result<(), String>;

/// The spare between takeovers.
pub struct Side<'a> {
    pub spare: Replica,
    pub clock: u64,
    pub sums: Sums,
    pub book: &'a Path,
}

/// When the primary dies.
enum Death {
    /// After so many records have come out of the pipe.
    Arrivals(usize),
    /// After so many microseconds, whatever is going on.
    Time(u64),
}

/// What a round's spare has got so far.
struct Intake {
    /// Where what a read brings is followed as a whole, the source of its cuts; none where it is
    /// applied record by record.
    cuts: Option<Rng>,
    /// What has arrived and isn't followed yet.
    inbox: Vec<u8>,
    /// The records that were applied.
    applied: Vec<Vec<u8>>,
    /// Records ahead since one was applied.
    quiet: u32,
}

impl Intake {
    /// A record ahead: whether to ask, at the first gap and again when asking seems to have been
    /// lost.
    fn asks(&mut self) -> bool {
        self.quiet += 1;
        self.quiet % 16 == 1
    }
}

fn failed(what: &str, error: &io::Error) -> String {
    format!("{what}: {error}")
}

impl Side<'_> {
    /// One round: a new primary begins with our image; it is killed; we take over.
    pub fn round(&mut self, seed: u64) -> Outcome {
        let rng = &mut Rng::new(seed);
        // With a board the spare goes other ways through the library, so not in every round.
        if rng.percent(40) {
            self.spare.unwatch();
        } else if self.spare.board().is_none() {
            self.spare.watch();
        }
        let begin = self.spare.clone();
        let (child, to) = self.start(rng.word())?;
        let mut link = Link::new(
            rng.word(),
            Weather {
                lost: rng.below(20),
                repeated: rng.below(20),
                delayed: rng.below(25),
            },
        );
        let death = if rng.percent(50) {
            Death::Arrivals(rng.below(150))
        } else {
            Death::Time(rng.below(6000) as u64)
        };
        // Records that were under way when the primary died get through, or not.
        let drains = rng.percent(70);
        let intake = Intake {
            cuts: rng.percent(50).then(|| Rng::new(rng.word())),
            inbox: Vec::new(),
            applied: Vec::new(),
            quiet: 0,
        };
        let applied = self.follow(child, to, intake, &mut link, &death, drains)?;
        self.sums.link.lost += link.done.lost;
        self.sums.link.repeated += link.done.repeated;
        self.sums.link.delayed += link.done.delayed;
        self.judge(&begin, &applied)?;
        self.take_over(rng)?;
        self.sums.takeovers += 1;
        Ok(())
    }

    fn start(&mut self, seed: u64) -> Result<(Child, ChildStdin), String> {
        let mut child = myself()?
            .arg("primary")
            .arg(seed.to_string())
            .arg(self.clock.to_string())
            .arg(self.book)
            .stdin(Stdio::piped())
            .stdout(Stdio::piped())
            .spawn()
            .map_err(|e| failed("a primary's process", &e))?;
        let mut to = child.stdin.take().ok_or("no pipe to the primary")?;
        let image = self.spare.image();
        to.write_all(&(image.len() as u32).to_le_bytes())
            .and_then(|()| to.write_all(image))
            .map_err(|e| failed("the image to the primary", &e))?;
        Ok((child, to))
    }

    /// Applies what arrives until the primary is dead. Returns the records that were applied.
    fn follow(
        &mut self,
        mut child: Child,
        mut to: ChildStdin,
        mut intake: Intake,
        link: &mut Link,
        death: &Death,
        drains: bool,
    ) -> Result<Vec<Vec<u8>>, String> {
        let mut from = child.stdout.take().ok_or("no pipe from the primary")?;
        let child = Arc::new(Mutex::new(child));
        let killer = match death {
            Death::Arrivals(_) => None,
            Death::Time(micros) => {
                let (child, micros) = (Arc::clone(&child), *micros);
                Some(thread::spawn(move || {
                    thread::sleep(Duration::from_micros(micros));
                    kill(&child);
                }))
            }
        };
        let mut tell = |wish: Option<Wish>| {
            if let Some(wish) = wish {
                // A dead primary doesn't hear it.
                let _ = to.write_all(&wish.encode());
            }
        };
        let mut arrived = Vec::new();
        let (mut arrivals, mut dead) = (0, false);
        if matches!(death, Death::Arrivals(0)) {
            kill(&child);
            dead = true;
        }
        loop {
            let mut chunk = [0; 4096];
            let count = from
                .read(&mut chunk)
                .map_err(|e| failed("the primary's pipe", &e))?;
            if count == 0 {
                break;
            }
            arrived.extend_from_slice(&chunk[..count]);
            for record in records(&mut arrived) {
                if dead && !drains {
                    continue;
                }
                arrivals += 1;
                for record in link.carry(record) {
                    if intake.cuts.is_some() {
                        intake.inbox.extend(record);
                    } else {
                        tell(self.step(&record, &mut intake)?);
                    }
                }
                if !dead && matches!(death, Death::Arrivals(n) if arrivals >= *n) {
                    kill(&child);
                    dead = true;
                }
            }
            if let Some(cuts) = &mut intake.cuts {
                // A read may end anywhere.
                let length = intake.inbox.len();
                let some = if cuts.percent(30) {
                    cuts.below(length + 1)
                } else {
                    length
                };
                tell(self.chunk(&mut intake, some)?);
            }
        }
        self.last(&mut intake, &arrived)?;
        if let Some(killer) = killer {
            killer.join().map_err(|_| "the killer failed".to_owned())?;
        }
        let mut child = child.lock().map_err(|_| "the killer failed".to_owned())?;
        child.wait().map_err(|e| failed("the primary's end", &e))?;
        Ok(intake.applied)
    }

    /// The pipe has ended, perhaps in the middle of a record: no feed record yet, and so nothing
    /// happens.
    fn last(&mut self, intake: &mut Intake, torn: &[u8]) -> Outcome {
        self.sums.torn += u64::from(!torn.is_empty());
        if intake.cuts.is_some() {
            intake.inbox.extend(torn);
            let all = intake.inbox.len();
            self.chunk(intake, all)?;
            if intake.inbox != torn {
                return Err("a chunk left more than half a record".to_owned());
            }
        } else if !torn.is_empty() {
            let image = self.spare.image().to_vec();
            let step = self.spare.apply(torn, 0);
            if step.applied || self.spare.image() != image {
                return Err("half a record was applied".to_owned());
            }
        }
        Ok(())
    }

    fn wish(&self, resend: bool) -> Wish {
        Wish {
            expected: self.spare.expected(),
            resend,
        }
    }

    /// So much of the inbox as one chunk. The run is held to what its records' numbers say; a
    /// record that is cut stays for the next one.
    fn chunk(&mut self, intake: &mut Intake, length: usize) -> Result<Option<Wish>, String> {
        let mut due = self.spare.expected();
        let image = self.spare.image().to_vec();
        let run = self.spare.follow(&intake.inbox[..length]);
        let mut rest = intake.inbox[..length].to_vec();
        let mut counted = Run {
            read: 0,
            applied: 0,
            place: 0,
            stop: None,
        };
        let mut asks = false;
        for record in records(&mut rest) {
            counted.read += 1;
            counted.place += record.len();
            match sequence(&record).wrapping_sub(due) {
                0 => {
                    counted.applied += 1;
                    self.sums.wraps += u64::from(due == u32::MAX);
                    due = due.wrapping_add(1);
                    intake.applied.push(record);
                    intake.quiet = 0;
                }
                1..0x8000_0000 => {
                    self.sums.aheads += 1;
                    asks |= intake.asks();
                }
                _ => self.sums.repeats += 1,
            }
        }
        if !rest.is_empty() {
            self.sums.cut += 1;
            let offset = counted.place;
            counted.stop = Some(Refusal::Torn { offset });
        }
        if run != counted || self.spare.expected() != due {
            return Err(format!("a chunk gave {run:?}, its numbers {counted:?}"));
        }
        if run.applied == 0 && self.spare.image() != image {
            return Err("a chunk without the record that is due changed the state".to_owned());
        }
        one_subject_each(&self.spare)?;
        intake.inbox.drain(..run.place);
        self.sums.chunks += 1;
        self.sums.applied += run.applied as u64;
        self.sums.resends += u64::from(asks);
        Ok((asks || run.applied > 0).then(|| self.wish(asks)))
    }

    /// One arrival. What isn't in turn leaves every byte as it is.
    fn step(&mut self, record: &[u8], intake: &mut Intake) -> Result<Option<Wish>, String> {
        let expected = self.spare.expected();
        let image = self.spare.image().to_vec();
        let step = self.spare.apply(record, 0);
        if step.applied {
            if step.sequence != expected || self.spare.expected() != expected.wrapping_add(1) {
                return Err(format!(
                    "{} applied where {expected} was due",
                    step.sequence
                ));
            }
            one_subject_each(&self.spare)?;
            self.sums.applied += 1;
            self.sums.wraps += u64::from(expected == u32::MAX);
            intake.applied.push(record.to_vec());
            intake.quiet = 0;
            return Ok(Some(self.wish(false)).filter(|w| w.expected.is_multiple_of(4)));
        }
        if self.spare.image() != image {
            return Err(format!("{:?} changed the state", step.answer));
        }
        match step.answer {
            Err(Refusal::Repeat { .. }) => {
                self.sums.repeats += 1;
                Ok(None)
            }
            Err(Refusal::Ahead { .. }) => {
                self.sums.aheads += 1;
                let asks = intake.asks();
                self.sums.resends += u64::from(asks);
                Ok(asks.then(|| self.wish(true)))
            }
            other => Err(format!("a whole record gave {other:?}")),
        }
    }

    /// Holds the spare to the dead primary's book.
    fn judge(&mut self, begin: &Replica, applied: &[Vec<u8>]) -> Outcome {
        let book = match fs::read(self.book) {
            Ok(book) => book,
            // It died before it opened its book, and so before its first record.
            Err(error) if error.kind() == io::ErrorKind::NotFound => Vec::new(),
            Err(error) => return Err(failed("the primary's book", &error)),
        };
        let _ = fs::remove_file(self.book);
        let mut made: Vec<Made> = Vec::new();
        let mut confirmed = begin.expected();
        for entry in Entry::decode_all(&book) {
            match entry {
                Entry::Made(entry) => made.push(entry),
                Entry::Confirmed { expected } => confirmed = expected,
            }
        }
        self.sums.made += made.len() as u64;
        // Nothing out of turn: what was applied is the first part of what was made, byte for byte.
        if applied.len() > made.len() {
            return Err("more was applied than was made".to_owned());
        }
        for (place, (ours, theirs)) in applied.iter().zip(&made).enumerate() {
            if *ours != theirs.record {
                return Err(format!("record {place} of the round isn't the primary's"));
            }
        }
        let last = applied.len().checked_sub(1).map(|place| &made[place]);
        let image = last.map_or(begin.image(), |made| &made.image);
        if self.spare.image() != image {
            return Err("the spare's image isn't the primary's at that record".to_owned());
        }
        self.judge_board(last.map_or(&[], |made| &made.board))?;
        // What testers were told of is here.
        let known = confirmed.wrapping_sub(begin.expected());
        if known as usize > applied.len() {
            return Err("a confirmed record was lost".to_owned());
        }
        let behind = (made.len() - applied.len()) as u64;
        self.sums.behind += behind;
        self.sums.most_behind = self.sums.most_behind.max(behind);
        Ok(())
    }

    /// The board that the spare kept over the whole feed is a fresh one, and the primary's where
    /// that kept one.
    fn judge_board(&mut self, primary: &[u8]) -> Outcome {
        let Some(board) = self.spare.board() else {
            return Ok(());
        };
        let mut fresh = [0; BOARD_BYTES];
        if library::board(self.spare.image(), &mut fresh).number != 0 || *board != fresh {
            return Err("the spare's board isn't its image's".to_owned());
        }
        self.sums.boards += 1;
        if !primary.is_empty() {
            if board[..] != *primary {
                return Err("the spare's board isn't the primary's at that record".to_owned());
            }
            self.sums.boards_of_two += 1;
        }
        Ok(())
    }

    /// The spare is the primary now: a rival of each holder is turned away, and work goes on
    /// from the number that was due.
    fn take_over(&mut self, rng: &mut Rng) -> Outcome {
        self.clock += 20;
        let holders: Vec<Active> = self.spare.actives().collect();
        if let Some(holder) = rng.pick(&holders)
            && let Coverage::Set(set) = holder.lock.coverage
            && let Some(ecu) = set.iter().next()
        {
            let rival = Active {
                lock: Lock {
                    id: LockId::from_halves(rng.word(), rng.word()),
                    // A group that nobody uses, so that only the overlap speaks against it.
                    scope: Scope::FunctionalGroup(200),
                    coverage: Coverage::of(&[ecu]),
                    subject: holder.lock.subject ^ 0x4000,
                    ..holder.lock
                },
                parent: None,
                ..holder
            };
            let mut state = self.spare.clone();
            let (_, step) = state
                .perform(&Operation::InsertActive { lock: rival })
                .map_err(|e| e.to_string())?;
            // Whoever is in the way, the rival has this ECU alone.
            match step.answer {
                Err(Refusal::CoverageConflict { ecu: Some(at), .. }) if at == ecu => {}
                answer => return Err(format!("a second tester of ECU {ecu} got {answer:?}")),
            }
            self.sums.refused_rivals += 1;
        }
        for _ in 0..rng.below(3) {
            let expected = self.spare.expected();
            let operation = work::operation(rng, &self.spare, self.clock);
            let (_, step) = self.spare.perform(&operation).map_err(|e| e.to_string())?;
            if !step.applied || step.sequence != expected {
                return Err(format!(
                    "the new primary's own record gave {:?}",
                    step.answer
                ));
            }
            one_subject_each(&self.spare)?;
        }
        Ok(())
    }
}

/// Cargo's name for what runs a program of another processor (bin/emulated).
const RUNNER: &str = "CARGO_TARGET_X86_64_UNKNOWN_LINUX_GNU_RUNNER";

/// This program once more, by its runner where it has one.
fn myself() -> Result<Command, String> {
    let path = env::current_exe().map_err(|e| failed("own path", &e))?;
    Ok(match env::var_os(RUNNER) {
        None => Command::new(path),
        Some(runner) => {
            let mut command = Command::new(runner);
            command.arg(path);
            command
        }
    })
}

fn kill(child: &Mutex<Child>) {
    if let Ok(mut child) = child.lock() {
        // It may have ended by a broken pipe; it is dead either way.
        let _ = child.kill();
    }
}

/// No two overlapping locks other than the vehicle's have two subjects.
pub fn one_subject_each(state: &Replica) -> Outcome {
    let narrow: Vec<Active> = state
        .actives()
        .filter(|a| a.lock.scope != Scope::Vehicle)
        .collect();
    for (place, a) in narrow.iter().enumerate() {
        for b in &narrow[place + 1..] {
            if a.lock.subject != b.lock.subject
                && a.lock.coverage.overlaps(&b.lock.coverage) != Overlap::Apart
            {
                return Err(format!("two subjects overlap: {a:?} and {b:?}"));
            }
        }
    }
    Ok(())
}
