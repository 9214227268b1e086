// SPDX-License-Identifier: Apache-2.0
//! What the static library must answer, worked out by the judge, 7's ECU by itself: the same
//! numbers, values and bytes, into the same kind of buffers. include/cablegorse.h has the tables.

use std::collections::BTreeSet;

use crate::{
    answer::{Class, Outcome, Refusal, Seen, Told as Word},
    asked::Asked,
    board,
    judge::{self, Event, Judge, Spare},
    model::{Active, Coverage, Id, Lock, Operation, Read, Scope, State, TesterPresent},
    names, wire,
};

/// A number and up to five values.
#[derive(Clone, Copy, Debug, PartialEq, Eq, Default)]
pub struct Told {
    pub number: u32,
    pub count: u32,
    pub values: [u64; 5],
}

impl Told {
    #[must_use]
    pub fn new(number: u8, values: &[u64]) -> Self {
        let mut told = Self {
            number: number.into(),
            count: values.len() as u32,
            values: [0; 5],
        };
        told.values[..values.len()].copy_from_slice(values);
        told
    }

    fn refused(refusal: Refusal) -> Self {
        Self::new(refusal.number(), &[refusal.place() as u64])
    }

    /// The answer of an operation on this state. A 0 says which: of begin_expiration 0, 1 Stale
    /// or 2 NotDue with the time; of acknowledgements 1 or 0. A 7 says where, after the id.
    fn of(word: &Word, operation: &Operation, entry: &State) -> Self {
        let flat = word.flat();
        let mut values: Vec<u64> = Vec::new();
        match (word, operation) {
            (Word::Done, Operation::BeginExpiration { .. }) => values.push(0),
            (Word::Stale, _) => values.push(1),
            (Word::NotDue(time), _) => values.extend([2, *time]),
            (
                Word::Done,
                Operation::AcknowledgeDefunct { .. } | Operation::DeleteDefunct { .. },
            ) => values.push(1),
            (Word::False, _) => values.push(0),
            (Word::Invariant(reason), _) => values.push(reason.number().into()),
            (Word::UnsoundState(rule), _) => values.push((*rule).into()),
            _ => {}
        }
        for id in [flat.first, flat.second].into_iter().flatten() {
            values.extend(id.words());
        }
        if let Word::CoverageConflict(id) = word {
            values.extend(match in_the_way_at(*id, operation, entry) {
                None => [0, 0],
                Some(ecu) => [1, ecu.into()],
            });
        }
        Self::new(flat.number, &values)
    }
}

/// Where the lock that the original names is in an operation's way; the original doesn't say.
fn in_the_way_at(id: Id, operation: &Operation, entry: &State) -> Option<u8> {
    let (Operation::InsertActive { lock } | Operation::CommitReplacement { lock, .. }) = operation
    else {
        panic!("7 of {operation:?}");
    };
    // What a replacement takes out isn't in its way, so this lock stays as it was at entry.
    let other = entry.active_at(id).expect("the lock in the way is active");
    lowest_shared(&other.lock.coverage, &lock.lock.coverage)
}

/// The lowest ECU that two overlapping coverages share. The whole vehicle names none of its own:
/// beside a set it is the set's lowest.
fn lowest_shared(one: &Coverage, other: &Coverage) -> Option<u8> {
    let named = |coverage: &Coverage| match coverage {
        Coverage::Vehicle => None,
        Coverage::Set(set) => Some(set.iter().collect::<BTreeSet<u8>>()),
    };
    match (named(one), named(other)) {
        (None, None) => None,
        (None, Some(set)) | (Some(set), None) => set.first().copied(),
        (Some(one), Some(other)) => (&one & &other).first().copied(),
    }
}

/// What applying a record gives.
#[derive(Clone, Copy, Debug, PartialEq, Eq, Default)]
pub struct Applied {
    pub told: Told,
    /// 0 image refused, 1 record refused or out of turn, 2 applied, 3 an output too short.
    pub part: u32,
    pub sequence: u32,
    pub place: u64,
    pub written: u64,
    pub gone: u64,
    pub lapsed: u64,
}

/// The answer and the bytes that belong into the three outputs, before their lengths are looked
/// at.
#[derive(Clone, Debug, PartialEq, Eq, Default)]
pub struct Full {
    pub applied: Applied,
    pub next: Vec<u8>,
    pub removed: Vec<u8>,
    pub expired: Vec<u8>,
    /// The state that the next image holds, where the record was applied.
    pub after: Option<State>,
}

impl Full {
    fn stay(part: u32, told: Told, sequence: u32, place: usize) -> Self {
        Self {
            applied: Applied {
                told,
                part,
                sequence,
                place: place as u64,
                ..Applied::default()
            },
            ..Self::default()
        }
    }

    /// A record with this number was applied, and this is left.
    fn done(
        told: Told,
        sequence: u32,
        place: usize,
        spare: Spare,
        (removed, expired): (&[Active], &[Id]),
    ) -> Self {
        let mut full = Self::stay(2, told, sequence, place);
        full.next =
            wire::write_image(&spare.state, spare.expected).expect("a sound state stays sound");
        full.removed = removed.iter().flat_map(wire::active_record).collect();
        full.expired = expired.iter().flat_map(|id| id.0).collect();
        full.applied.written = full.next.len() as u64;
        full.applied.gone = removed.len() as u64;
        full.applied.lapsed = expired.len() as u64;
        full.after = Some(spare.state);
        full
    }

    /// Puts the outputs into the buffers, or says that one is too short.
    pub fn put(
        &self,
        at: usize,
        next: &mut [u8],
        removed: &mut [u8],
        expired: &mut [u8],
    ) -> Applied {
        let needed = [&self.next, &self.removed, &self.expired].map(Vec::len);
        if needed[0] > next.len() || needed[1] > removed.len() || needed[2] > expired.len() {
            return Applied {
                told: Told::new(21, &needed.map(|bytes| bytes as u64)),
                part: 3,
                sequence: self.applied.sequence,
                place: at as u64,
                ..Applied::default()
            };
        }
        next[..needed[0]].copy_from_slice(&self.next);
        removed[..needed[1]].copy_from_slice(&self.removed);
        expired[..needed[2]].copy_from_slice(&self.expired);
        self.applied
    }
}

/// 28: the board isn't the image's own. The feed's place stays.
#[must_use]
pub fn mismatch(at: usize) -> Applied {
    Full::stay(0, Told::new(28, &[]), 0, at).applied
}

/// `cablegorse_board`.
pub fn board(image: &[u8], out: &mut [u8]) -> Told {
    match wire::read_image(image) {
        Err(refusal) => Told::refused(refusal),
        Ok((state, _)) => put_whole(&board::board(&state), out),
    }
}

/// A board, or a record, that is worked out already: its size, and 21 where it has no room.
pub fn put_whole(bytes: &[u8], out: &mut [u8]) -> Told {
    let size = [bytes.len() as u64];
    match out.get_mut(..bytes.len()) {
        None => Told::new(21, &size),
        Some(out) => {
            out.copy_from_slice(bytes);
            Told::new(0, &size)
        }
    }
}

/// The operation that numbers and list mean, and its record: 18 and 19, then 14, then 29.
fn asked_record(sequence: u32, asked: &Asked, list: &[u64]) -> Result<(Operation, Vec<u8>), Told> {
    let operation = asked
        .operation(list)
        .map_err(|number| Told::new(number, &[0]))?;
    match wire::write_feed(&operation, sequence) {
        Some(record) => Ok((operation, record)),
        None if list.len() % 2 == 1 => Err(Told::new(14, &[])),
        None => Err(Told::new(29, &[])),
    }
}

/// `cablegorse_write_record`.
pub fn write_record(sequence: u32, asked: &Asked, list: &[u64], out: &mut [u8]) -> Told {
    match asked_record(sequence, asked, list) {
        Err(told) => told,
        Ok((_, record)) => put_whole(&record, out),
    }
}

/// What a primary's own operation gives: as a step over its record, and the record.
#[derive(Clone, Debug, PartialEq, Eq, Default)]
pub struct Own {
    pub full: Full,
    pub sent: Vec<u8>,
}

impl Own {
    /// Bytes of next, removed, expired and sent.
    #[must_use]
    pub fn needed(&self) -> [usize; 4] {
        let full = &self.full;
        [&full.next, &full.removed, &full.expired, &self.sent].map(Vec::len)
    }

    /// Puts the outputs into the four buffers, or says that one is too short.
    pub fn put(&self, [next, removed, expired, sent]: [&mut [u8]; 4]) -> Applied {
        let lengths = [next.len(), removed.len(), expired.len(), sent.len()];
        let needed = self.needed();
        if needed
            .iter()
            .zip(lengths)
            .any(|(bytes, room)| *bytes > room)
        {
            let told = Told::new(21, &needed.map(|bytes| bytes as u64));
            return Full::stay(3, told, self.full.applied.sequence, 0).applied;
        }
        sent[..needed[3]].copy_from_slice(&self.sent);
        self.full.put(0, next, removed, expired)
    }
}

/// `cablegorse_perform`. The outputs: next, removed, expired, sent.
pub fn perform(image: &[u8], asked: &Asked, list: &[u64], outputs: [&mut [u8]; 4]) -> Applied {
    match wire::read_image(image) {
        Err(refusal) => Full::stay(0, Told::refused(refusal), 0, 0).applied,
        Ok((state, expected)) => own(&Judge::new(&state), expected, asked, list).put(outputs),
    }
}

/// The same on a sound state that is in the judge already. The original is handed the operation
/// itself; its record is only written.
#[must_use]
pub fn own(judge: &Judge, expected: u32, asked: &Asked, list: &[u64]) -> Own {
    let (operation, sent) = match asked_record(expected, asked, list) {
        Ok(written) => written,
        Err(told) => {
            return Own {
                full: Full::stay(1, told, 0, 0),
                sent: Vec::new(),
            };
        }
    };
    let Outcome {
        told,
        removed,
        expired,
        state,
    } = judge.apply(&operation);
    let told = Told::of(&told, &operation, judge.state());
    let spare = Spare {
        state,
        expected: expected.wrapping_add(1),
    };
    let full = Full::done(told, expected, sent.len(), spare, (&removed, &expired));
    Own { full, sent }
}

/// `cablegorse_apply_board`.
pub fn apply_board(
    image: &[u8],
    board: &mut [u8],
    feed: &[u8],
    at: usize,
    next: &mut [u8],
    removed: &mut [u8],
    expired: &mut [u8],
) -> Applied {
    let (state, expected) = match wire::read_image(image) {
        Err(refusal) => return Full::stay(0, Told::refused(refusal), 0, at).applied,
        Ok(read) => read,
    };
    let judge = Judge::new(&state);
    if judge.board() != board {
        return mismatch(at);
    }
    let full = step(&judge, expected, feed, at);
    let applied = full.put(at, next, removed, expired);
    if let (2, Some(after)) = (applied.part, &full.after) {
        board.copy_from_slice(&board::board(after));
    }
    applied
}

/// `cablegorse_delete_defunct_board`.
pub fn delete_defunct_board(
    image: &[u8],
    board: &[u8],
    id: [u64; 2],
    kind: u8,
    number: u8,
    subject: u16,
    next: &mut [u8],
) -> Applied {
    match wire::read_image(image) {
        Ok((state, _)) if board::board(&state) != board => mismatch(0),
        _ => delete_defunct(image, id, kind, number, subject, next),
    }
}

/// `cablegorse_apply`.
pub fn apply(
    image: &[u8],
    feed: &[u8],
    at: usize,
    next: &mut [u8],
    removed: &mut [u8],
    expired: &mut [u8],
) -> Applied {
    match wire::read_image(image) {
        Err(refusal) => Full::stay(0, Told::refused(refusal), 0, at),
        Ok((state, expected)) => step(&Judge::new(&state), expected, feed, at),
    }
    .put(at, next, removed, expired)
}

/// The same on a sound state that is in the judge already.
#[must_use]
pub fn step(judge: &Judge, expected: u32, feed: &[u8], at: usize) -> Full {
    let step = judge::step(judge, expected, feed, at);
    let (sequence, told, removed, expired) = match step.event {
        Event::Refused(refusal) => {
            return Full::stay(1, Told::refused(refusal), 0, at);
        }
        Event::Repeat { sequence, expected } | Event::Ahead { sequence, expected } => {
            let told = Told::new(step.event.number(), &[expected.into()]);
            return Full::stay(1, told, sequence, step.next);
        }
        Event::Applied {
            sequence,
            told,
            removed,
            expired,
        } => (sequence, told, removed, expired),
    };
    let record = wire::read_feed(feed, at).expect("it was applied");
    let told = Told::of(&told, &record.operation, judge.state());
    Full::done(told, sequence, step.next, step.spare, (&removed, &expired))
}

/// What following a chunk gives.
#[derive(Clone, Copy, Debug, PartialEq, Eq, Default)]
pub struct Followed {
    pub told: Told,
    /// 0 image refused, 1 a record can't be read, 2 the chunk ended, 3 the output too short.
    pub part: u32,
    pub expected: u32,
    pub place: u64,
    pub read: u64,
    pub applied: u64,
    pub written: u64,
}

/// The answer and the bytes that belong into the output, before its length is looked at.
#[derive(Clone, Debug, PartialEq, Eq, Default)]
pub struct Run {
    pub followed: Followed,
    pub next: Vec<u8>,
}

impl Run {
    /// Puts the image into the buffer, or says that it is too short.
    pub fn put(&self, next: &mut [u8]) -> Followed {
        let needed = self.next.len();
        if needed > next.len() {
            return Followed {
                told: Told::new(21, &[needed as u64]),
                part: 3,
                ..Followed::default()
            };
        }
        next[..needed].copy_from_slice(&self.next);
        self.followed
    }
}

/// `cablegorse_follow`.
pub fn follow(image: &[u8], chunk: &[u8], next: &mut [u8]) -> Followed {
    match wire::read_image(image) {
        Err(refusal) => Followed {
            told: Told::refused(refusal),
            ..Followed::default()
        },
        Ok((state, expected)) => run(Spare { state, expected }, chunk).put(next),
    }
}

/// The same on a spare whose state is sound: one step after another.
#[must_use]
pub fn run(mut spare: Spare, chunk: &[u8]) -> Run {
    let (mut at, mut read, mut applied) = (0, 0, 0);
    let mut stop = None;
    while at < chunk.len() {
        let step = judge::feed_step(&spare, chunk, at);
        match step.event {
            Event::Refused(refusal) => {
                stop = Some(refusal);
                break;
            }
            Event::Repeat { .. } | Event::Ahead { .. } => {}
            Event::Applied { .. } => applied += 1,
        }
        read += 1;
        (spare, at) = (step.spare, step.next);
    }
    let next = wire::write_image(&spare.state, spare.expected).expect("a sound state stays sound");
    let (told, part) = match stop {
        Some(refusal) => (Told::refused(refusal), 1),
        None => (Told::default(), 2),
    };
    let followed = Followed {
        told,
        part,
        expected: spare.expected,
        place: at as u64,
        read,
        applied,
        written: next.len() as u64,
    };
    Run { followed, next }
}

/// Kind and number to a scope.
#[must_use]
pub fn scope(kind: u64, number: u64) -> Option<Scope> {
    let number = u8::try_from(number).ok()?;
    match kind {
        0 => (number == 0).then_some(Scope::Vehicle),
        1 => Some(Scope::Ecu(number)),
        2 => Some(Scope::Group(number)),
        _ => None,
    }
}

/// `cablegorse_delete_defunct`.
pub fn delete_defunct(
    image: &[u8],
    id: [u64; 2],
    kind: u8,
    number: u8,
    subject: u16,
    next: &mut [u8],
) -> Applied {
    let (state, expected) = match wire::read_image(image) {
        Err(refusal) => return Full::stay(0, Told::refused(refusal), 0, 0).applied,
        Ok(read) => read,
    };
    let Some(scope) = scope(kind.into(), number.into()) else {
        return Full::stay(1, Told::new(19, &[0]), 0, 0).applied;
    };
    let id = Id::from_words(id[0], id[1]);
    let operation = Operation::DeleteDefunct { id, scope, subject };
    dropped(&Judge::new(&state), expected, &operation, next)
}

/// The same on a sound state that is in the judge already.
pub fn dropped(judge: &Judge, expected: u32, operation: &Operation, next: &mut [u8]) -> Applied {
    let outcome = judge.apply(operation);
    let told = Told::of(&outcome.told, operation, judge.state());
    let mut full = Full::stay(2, told, 0, 0);
    if outcome.state != *judge.state() {
        full.next = wire::write_image(&outcome.state, expected).expect("a sound state stays sound");
        full.applied.written = full.next.len() as u64;
    }
    full.put(0, next, &mut [], &mut [])
}

/// `cablegorse_prepare_runtime_update`.
#[must_use]
pub fn prepare_runtime_update(image: &[u8], generation: u64) -> Told {
    match wire::read_image(image) {
        Err(refusal) => Told::refused(refusal),
        Ok((state, _)) => prepared(&Judge::new(&state), generation),
    }
}

/// The same on a sound state that is in the judge already.
#[must_use]
pub fn prepared(judge: &Judge, generation: u64) -> Told {
    match judge.prepare_runtime_update(generation) {
        (Word::Done, after) => Told::new(0, &[after]),
        (refusal, _) => Told::new(refusal.number(), &[]),
    }
}

/// `cablegorse_test`.
#[must_use]
pub fn test(image: &[u8]) -> Told {
    match wire::read_image(image) {
        Err(refusal) => Told::refused(refusal),
        Ok((state, expected)) => Told::new(
            0,
            &[
                state.revision,
                expected.into(),
                state.active.len() as u64,
                state.defunct.len() as u64,
            ],
        ),
    }
}

/// `cablegorse_read`.
pub fn read(image: &[u8], question: u32, x: u64, y: u64, record: &[u8], out: &mut [u8]) -> Told {
    match wire::read_image(image) {
        Err(refusal) => Told::refused(refusal),
        Ok((state, _)) => ask(&mut Judge::new(&state), question, x, y, record, out),
    }
}

/// The same on a sound state that is in the judge already.
pub fn ask(
    judge: &mut Judge,
    question: u32,
    x: u64,
    y: u64,
    record: &[u8],
    out: &mut [u8],
) -> Told {
    let asked = match asked(question, x, y, record) {
        Ok(read) => read,
        Err(told) => return told,
    };
    let (values, bytes): (Vec<u64>, Vec<u8>) = match judge.read(&asked) {
        Seen::Unsound(rule) => return Told::new(12, &[rule.into()]),
        Seen::Revision(revision) => (vec![revision], vec![]),
        Seen::Active(None)
        | Seen::Defunct(None)
        | Seen::TesterPresent(None)
        | Seen::Subject(None) => (vec![0], vec![]),
        Seen::Active(Some(active)) => (vec![1], wire::active_record(&active)),
        Seen::Defunct(Some(defunct)) => (vec![1], wire::defunct_record(&defunct)),
        Seen::Ids(ids) => (
            vec![ids.len() as u64],
            ids.iter().flat_map(|id| id.0).collect(),
        ),
        Seen::TesterPresent(Some(TesterPresent::Ecu(ecu))) => (vec![1, ecu.into()], vec![]),
        Seen::TesterPresent(Some(TesterPresent::Functional(group))) => {
            (vec![2, group.into()], vec![])
        }
        Seen::Flag(flag) => (vec![flag.into()], vec![]),
        Seen::Holder { subject, links } => (vec![subject.into(), links.into()], vec![]),
        Seen::Subject(Some(subject)) => (vec![1, subject.into()], vec![]),
    };
    if bytes.len() > out.len() {
        return Told::new(21, &[bytes.len() as u64]);
    }
    out[..bytes.len()].copy_from_slice(&bytes);
    Told::new(0, &values)
}

/// The read that a question's number and arguments mean.
fn asked(question: u32, x: u64, y: u64, record: &[u8]) -> Result<Read, Told> {
    let bad = Told::new(19, &[0]);
    let scoped = |kind, number| scope(kind, number).ok_or(bad);
    let small = |number: u64| u8::try_from(number).map_err(|_| bad);
    let subject = u16::try_from(x).map_err(|_| bad);
    let id = Id::from_words(x, y);
    // A place past every list is a place without a lock.
    let place = usize::try_from(x).unwrap_or(usize::MAX);
    let active = || wire::read_active(record).map_err(Told::refused);
    Ok(match question {
        1 => Read::Revision,
        2 => Read::ActiveForScope(scoped(x, y)?),
        3 => Read::ActiveById(id),
        4 => Read::DefunctById(id),
        5 => Read::ActiveAt(place),
        6 => Read::DefunctAt(place),
        7 => Read::CoveredNarrowLocks(active()?),
        8 => Read::CoveringFunctionalGroup {
            subject: subject?,
            ecu: small(y)?,
        },
        9 => Read::TesterPresentFor {
            subject: subject?,
            scope: scoped(y / 256, y % 256)?,
        },
        10 => Read::TesterPresentNeeded(match x {
            1 => TesterPresent::Ecu(small(y)?),
            2 => TesterPresent::Functional(small(y)?),
            _ => return Err(bad),
        }),
        11 => {
            let lock = active()?.lock;
            Read::UncoveredDefunct {
                subject: lock.subject,
                scope: lock.scope,
                coverage: lock.coverage,
                now: x,
            }
        }
        12 => Read::CurrentHolder(wire::read_defunct(record).map_err(Told::refused)?),
        13 => Read::VehicleLockOwnerSub,
        14 => Read::HasNonVehicleLocks,
        _ => return Err(Told::new(18, &[0])),
    })
}

/// A read as question, x, y and record.
#[must_use]
pub fn question(read: &Read) -> (u32, u64, u64, Vec<u8>) {
    let parts = |scope: &Scope| match scope {
        Scope::Vehicle => (0, 0),
        Scope::Ecu(ecu) => (1, u64::from(*ecu)),
        Scope::Group(group) => (2, u64::from(*group)),
    };
    let by_id = |number, id: &Id| {
        let [x, y] = id.words();
        (number, x, y, vec![])
    };
    match read {
        Read::Revision => (1, 0, 0, vec![]),
        Read::ActiveForScope(scope) => {
            let (x, y) = parts(scope);
            (2, x, y, vec![])
        }
        Read::ActiveById(id) => by_id(3, id),
        Read::DefunctById(id) => by_id(4, id),
        Read::ActiveAt(place) => (5, *place as u64, 0, vec![]),
        Read::DefunctAt(place) => (6, *place as u64, 0, vec![]),
        Read::CoveredNarrowLocks(lock) => (7, 0, 0, wire::active_record(lock)),
        Read::CoveringFunctionalGroup { subject, ecu } => {
            (8, (*subject).into(), (*ecu).into(), vec![])
        }
        Read::TesterPresentFor { subject, scope } => {
            let (kind, number) = parts(scope);
            (9, (*subject).into(), kind * 256 + number, vec![])
        }
        Read::TesterPresentNeeded(TesterPresent::Ecu(ecu)) => (10, 1, (*ecu).into(), vec![]),
        Read::TesterPresentNeeded(TesterPresent::Functional(group)) => {
            (10, 2, (*group).into(), vec![])
        }
        Read::UncoveredDefunct {
            subject,
            scope,
            coverage,
            now,
        } => (11, *now, 0, meant(*subject, *scope, *coverage)),
        Read::CurrentHolder(record) => (12, 0, 0, wire::defunct_record(record)),
        Read::VehicleLockOwnerSub => (13, 0, 0, vec![]),
        Read::HasNonVehicleLocks => (14, 0, 0, vec![]),
    }
}

/// An ACTIVE record of which only these three count.
fn meant(subject: u16, scope: Scope, coverage: Coverage) -> Vec<u8> {
    let lock = Lock::plain(Id::default(), scope, coverage, subject);
    wire::active_record(&lock.until(0))
}

/// `cablegorse_name_number`.
pub fn name_number(table: &mut [u8], name: &[u8], folding: bool) -> Told {
    match names::number(table, name, folding) {
        Ok(number) => Told::new(0, &[number.into()]),
        Err(refusal) => Told::new(refusal, &[]),
    }
}

/// `cablegorse_name_at`.
pub fn name_at(table: &[u8], number: u16, folding: bool, out: &mut [u8]) -> Told {
    match names::name(table, number, folding) {
        Err(refusal) => Told::new(refusal, &[]),
        Ok(None) => Told::new(0, &[0]),
        Ok(Some(name)) if name.len() > out.len() => Told::new(21, &[name.len() as u64]),
        Ok(Some(name)) => {
            out[..name.len()].copy_from_slice(name);
            Told::new(0, &[1, name.len() as u64])
        }
    }
}

/// `cablegorse_response_class`.
#[must_use]
pub fn response_class(number: u64) -> u32 {
    match u8::try_from(number).ok().and_then(judge::response_class) {
        None => 0,
        Some(Class::BadRequest) => 1,
        Some(Class::Conflict) => 2,
        Some(Class::InternalServerError) => 3,
        Some(Class::Forbidden) => 4,
    }
}

#[cfg(test)]
mod tests {
    use super::*;

    fn set(ecus: impl Iterator<Item = u8>) -> Coverage {
        Coverage::of(&ecus.collect::<Vec<u8>>())
    }

    /// By the other definition: the first number that both cover, unless neither is a set.
    #[test]
    fn the_lowest_shared_is_the_first_that_both_cover() {
        let mut all = vec![Coverage::Vehicle, Coverage::of(&[]), set(0..=255)];
        for ecu in [
            0, 1, 7, 8, 62, 63, 64, 65, 127, 128, 191, 192, 193, 247, 254, 255,
        ] {
            // From here on, and lower ones that only one of the two has.
            let half = |bit| set((0..=255).filter(move |e| *e >= ecu || e % 2 == bit));
            all.extend([
                Coverage::of(&[ecu]),
                set(ecu..=255),
                set(0..=ecu),
                set((ecu..=255).step_by(3)),
                half(0),
                half(1),
            ]);
        }
        let mut met = [0; 2];
        for one in &all {
            for other in &all {
                let named = [one, other].iter().any(|c| **c != Coverage::Vehicle);
                let due = (0..=255).find(|ecu| named && one.covers(*ecu) && other.covers(*ecu));
                if one.overlaps(other) {
                    assert_eq!(lowest_shared(one, other), due, "{one:?}, {other:?}");
                    met[usize::from(due.is_some())] += 1;
                } else {
                    assert_eq!(due, None);
                }
            }
        }
        // The whole vehicle and itself, the empty set, and the empty set and it.
        assert_eq!(met[0], 3);
        assert!(met[1] > 1000);
    }
}
