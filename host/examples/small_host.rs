// SPDX-License-Identifier: Apache-2.0
//! A complete small host: a primary and a spare over TCP, with names, a clock and a rule for
//! each refusal. Start the spare, then the primary, type commands into the primary, kill it, and
//! go on at the spare:
//!
//!     cargo run --example small_host -- spare 127.0.0.1:7700
//!     cargo run --example small_host -- primary 127.0.0.1:7700
//!
//! Commands: `lock ECU TESTER SECONDS`, `break LOCK TESTER SECONDS`, `renew LOCK SECONDS`,
//! `free LOCK`, `seen LOCK` (drop a broken lock), `list`.

use std::{
    collections::VecDeque,
    env,
    error::Error,
    io::{self, BufRead, Read, Write},
    net::{TcpListener, TcpStream},
    time::{Duration, SystemTime, UNIX_EPOCH},
};

use cablegorse::{
    Active, Coverage, Done, Lock, LockId, NameTable, Operation, Refusal, Replica, Scope, Step,
};

type Outcome<T> = Result<T, Box<dyn Error>>;

/// What the host keeps: one image with its expected number (in `locks`), and its name tables.
struct Host {
    locks: Replica,
    ecus: NameTable,
    testers: NameTable,
}

/// Message kinds between the two ends, each with a length before its bytes.
const IMAGE: u8 = 0;
const RECORD: u8 = 1;
const ECUS: u8 = 2;
const TESTERS: u8 = 3;

fn send(to: &mut TcpStream, kind: u8, bytes: &[u8]) -> io::Result<()> {
    let mut message = vec![kind];
    message.extend((bytes.len() as u32).to_le_bytes());
    message.extend_from_slice(bytes);
    to.write_all(&message)
}

fn receive(from: &mut TcpStream) -> io::Result<(u8, Vec<u8>)> {
    let mut head = [0; 5];
    from.read_exact(&mut head)?;
    let [kind, length @ ..] = head;
    let length = u32::from_le_bytes(length) as usize;
    if length > 1 << 20 {
        return Err(io::Error::other("a message longer than any of ours"));
    }
    let mut bytes = vec![0; length];
    from.read_exact(&mut bytes)?;
    Ok((kind, bytes))
}

/// The host owns the clock; the library is handed its reading.
fn now() -> u64 {
    SystemTime::now()
        .duration_since(UNIX_EPOCH)
        .map_or(0, |since| since.as_millis() as u64)
}

/// The host owns ids, too; a real one takes them from a good random source.
fn new_id(host: &Host) -> LockId {
    LockId::from_halves(now(), u64::from(host.locks.expected()))
}

impl Host {
    fn new() -> Self {
        Self {
            locks: Replica::empty(),
            ecus: NameTable::folding(),
            testers: NameTable::exact(),
        }
    }

    /// Runs the spare: follow the primary until it is gone.
    fn follow(&mut self, from: &mut TcpStream) -> Outcome<()> {
        loop {
            let (kind, bytes) = match receive(from) {
                Ok(message) => message,
                // The primary is gone. Whether to take over is the host's policy, not ours.
                Err(_) => return Ok(()),
            };
            match kind {
                IMAGE => self.locks = Replica::from_image(&bytes)?,
                ECUS => self.ecus = NameTable::from_bytes(&bytes, true)?,
                TESTERS => self.testers = NameTable::from_bytes(&bytes, false)?,
                RECORD => {
                    let step = self.locks.apply(&bytes, 0);
                    match step.answer {
                        // Applied (refused or not), or seen before, or one is missing: in each
                        // case the answer is the number that is due.
                        _ if step.applied => {}
                        Err(Refusal::Repeat { .. } | Refusal::Ahead { .. }) => {}
                        // 17 to 19: not a record. Nothing changed; this link can't be trusted.
                        answer => return Err(format!("bad record: {answer:?}").into()),
                    }
                    from.write_all(&self.locks.expected().to_le_bytes())?;
                }
                other => return Err(format!("message kind {other}").into()),
            }
        }
    }
}

/// A primary's link to its spare: records that aren't confirmed yet are kept to be sent again.
struct Link {
    stream: Option<TcpStream>,
    flight: VecDeque<Vec<u8>>,
}

impl Link {
    /// The spare begins with our image and our names.
    fn connect(address: &str, host: &Host) -> Self {
        let stream = TcpStream::connect(address).and_then(|mut stream| {
            stream.set_read_timeout(Some(Duration::from_secs(1)))?;
            send(&mut stream, ECUS, host.ecus.as_bytes())?;
            send(&mut stream, TESTERS, host.testers.as_bytes())?;
            send(&mut stream, IMAGE, host.locks.image())?;
            Ok(stream)
        });
        if stream.is_err() {
            eprintln!("no spare at {address}: running alone");
        }
        Self {
            stream: stream.ok(),
            flight: VecDeque::new(),
        }
    }

    fn alone() -> Self {
        Self {
            stream: None,
            flight: VecDeque::new(),
        }
    }

    /// Sends a record and waits until the spare has it; the tester is answered only then. What
    /// the spare misses is sent again from the number it expects. False: run alone from now on.
    fn replicate(&mut self, record: Vec<u8>, expected: u32, names: [&NameTable; 2]) -> bool {
        let Some(stream) = &mut self.stream else {
            return false;
        };
        self.flight.push_back(record);
        for _ in 0..10 {
            let sent = send(stream, ECUS, names[0].as_bytes())
                .and_then(|()| send(stream, TESTERS, names[1].as_bytes()))
                .and_then(|()| {
                    let mut all = self.flight.iter();
                    all.try_for_each(|record| send(stream, RECORD, record))
                });
            let mut answer = [0; 4];
            for _ in 0..self.flight.len() {
                if sent.is_err() || stream.read_exact(&mut answer).is_err() {
                    self.stream = None;
                    return false;
                }
            }
            // How many the spare still misses.
            let missing = expected.wrapping_sub(u32::from_le_bytes(answer)) as usize;
            let has = self.flight.len().saturating_sub(missing);
            self.flight.drain(..has);
            if missing == 0 {
                return true;
            }
        }
        self.stream = None;
        false
    }
}

/// A tester's command as an operation, by the host's own policy.
fn operation(host: &mut Host, words: &[&str]) -> Outcome<Operation> {
    let id = |word: &str| word.parse::<LockId>();
    let until = |seconds: &str| Ok::<u64, Box<dyn Error>>(now() + seconds.parse::<u64>()? * 1000);
    Ok(match words {
        ["lock", ecu, tester, seconds] => Operation::InsertActive {
            lock: ecu_lock(host, ecu, tester, until(seconds)?)?,
        },
        ["break", lock, tester, seconds] => {
            let broken = host
                .locks
                .active_by_id(id(lock)?)
                .ok_or("no such lock is held")?;
            let Scope::Ecu(number) = broken.lock.scope else {
                return Err("only ECU locks are broken here".into());
            };
            let name = host.ecus.name(number.into()).unwrap_or_default();
            let ecu = String::from_utf8_lossy(&name).into_owned();
            let lock = ecu_lock(host, &ecu, tester, until(seconds)?)?;
            Operation::CommitReplacement {
                roots: vec![broken.lock.id],
                lock,
                broken_by: lock.lock.subject.into(),
                broken_at: now(),
            }
        }
        ["renew", lock, seconds] => Operation::Renew {
            id: id(lock)?,
            expires: until(seconds)?,
            now: now(),
            metadata: None,
        },
        ["free", lock] => Operation::Delete { id: id(lock)? },
        ["seen", lock] => Operation::AcknowledgeDefunct { id: id(lock)? },
        _ => return Err("commands: lock, break, renew, free, seen, list".into()),
    })
}

fn ecu_lock(host: &mut Host, ecu: &str, tester: &str, expires: u64) -> Outcome<Active> {
    let ecu = u8::try_from(host.ecus.number(ecu.as_bytes())?)?;
    let subject = host.testers.number(tester.as_bytes())?;
    Ok(Active {
        lock: Lock {
            id: new_id(host),
            scope: Scope::Ecu(ecu),
            exclusive: true,
            coverage: Coverage::of(&[ecu]),
            subject,
            principal: subject.into(),
            metadata: 0,
        },
        expires,
        parent: None,
    })
}

/// Runs as primary: what is typed, and before it what the clock asks for.
fn serve(host: &mut Host, link: &mut Link) -> Outcome<()> {
    for line in io::stdin().lock().lines() {
        let line = line?;
        let words: Vec<&str> = line.split_whitespace().collect();
        // Locks whose time is over go first, each through the feed like everything else.
        let due: Vec<LockId> = host
            .locks
            .actives()
            .filter(|a| a.expires <= now())
            .map(|a| a.lock.id)
            .collect();
        for id in due {
            perform(host, link, &Operation::BeginExpiration { id, now: now() })?;
        }
        perform(host, link, &Operation::ExpireDefunct { now: now() })?;
        match words[..] {
            [] => {}
            ["list"] => list(host),
            _ => match operation(host, &words) {
                Ok(operation) => {
                    let step = perform(host, link, &operation)?;
                    report(&operation, &step);
                }
                Err(why) => println!("{why}"),
            },
        }
    }
    Ok(())
}

/// Every change goes this way: applied here as the record that is due, then sent.
fn perform(host: &mut Host, link: &mut Link, operation: &Operation) -> Outcome<Step> {
    let (record, step) = host.locks.perform(operation)?;
    let names = [&host.ecus, &host.testers];
    if link.stream.is_some() && !link.replicate(record, host.locks.expected(), names) {
        eprintln!("the spare is gone: running alone");
    }
    for gone in &step.removed {
        // Here a real host ends the lock's tester-present task and tells its owner.
        println!("gone: {}", gone.lock.id);
    }
    Ok(step)
}

fn report(operation: &Operation, step: &Step) {
    match (step.answer, operation) {
        (Ok(Done::Done), Operation::InsertActive { lock })
        | (Ok(Done::Done), Operation::CommitReplacement { lock, .. }) => {
            println!("held: {}", lock.lock.id);
        }
        (Ok(done), _) => println!("{done:?}"),
        (Err(refusal), _) => println!("refused: {refusal} ({:?})", refusal.response_class()),
    }
}

fn list(host: &Host) {
    let name = |table: &NameTable, number: u16| {
        let name = table.name(number).unwrap_or_default();
        String::from_utf8_lossy(&name).into_owned()
    };
    for active in host.locks.actives() {
        let (id, subject) = (active.lock.id, name(&host.testers, active.lock.subject));
        if let Scope::Ecu(ecu) = active.lock.scope {
            println!("{id} {} held by {subject}", name(&host.ecus, ecu.into()));
        }
    }
    for broken in host.locks.defuncts() {
        let holder = host.locks.current_holder(&broken);
        let (owner, holder) = (broken.lock.subject, holder.subject);
        println!(
            "{} of {} broken, now {}",
            broken.lock.id,
            name(&host.testers, owner),
            name(&host.testers, holder)
        );
    }
    println!(
        "revision {}, next record {}",
        host.locks.revision(),
        host.locks.expected()
    );
}

fn main() -> Outcome<()> {
    let words: Vec<String> = env::args().skip(1).collect();
    let words: Vec<&str> = words.iter().map(String::as_str).collect();
    let mut host = Host::new();
    match words[..] {
        ["primary", address] => {
            let mut link = Link::connect(address, &host);
            serve(&mut host, &mut link)
        }
        ["spare", address] => {
            let (mut from, _) = TcpListener::bind(address)?.accept()?;
            host.follow(&mut from)?;
            let (next, revision) = (host.locks.expected(), host.locks.revision());
            println!("taken over at record {next}, revision {revision}");
            serve(&mut host, &mut Link::alone())
        }
        _ => Err("small_host primary ADDRESS | small_host spare ADDRESS".into()),
    }
}
