// SPDX-License-Identifier: Apache-2.0
//! A primary's or a spare's lock state, kept as an image.

use std::fmt;

use crate::{
    library::{
        self, Applied, BOARD_BYTES, EXPIRED_LIMIT, IMAGE_LIMIT, Part, RECORD_LIMIT, REMOVED_LIMIT,
        Told, question,
    },
    record::{
        self, ACTIVE_BYTES, DEFUNCT_BYTES, HEAD_BYTES, Head, ListTooLong, Operation, empty_image,
    },
    refusal::Refusal,
    types::{Active, Coverage, Defunct, Holder, LockId, OnEcu, Scope, TesterPresent},
};

/// What an operation that wasn't refused did.
#[derive(Clone, Copy, Debug, PartialEq, Eq, Hash)]
#[non_exhaustive]
pub enum Done {
    /// It went through.
    Done,
    /// Expiration of a lock that isn't there: nothing to do.
    Stale,
    /// Expiration before its time: nothing was done.
    NotDue {
        /// When the lock expires.
        expires: u64,
    },
    /// Acknowledgement of a defunct lock that isn't there: nothing to do.
    Absent,
}

/// What one feed record gave.
#[derive(Clone, Debug, PartialEq, Eq)]
pub struct Step {
    /// The operation's answer, or why the record wasn't handed to it.
    pub answer: Result<Done, Refusal>,
    /// Whether the record was in turn and handed to its operation. Then the expected number
    /// moved on, even if the operation refused.
    pub applied: bool,
    /// The record's sequence number; 0 where none could be read.
    pub sequence: u32,
    /// Where the next record starts; where this one starts if it couldn't be read.
    pub place: usize,
    /// Locks that went, as they were, in the original's order: children before their root.
    pub removed: Vec<Active>,
    /// Defunct locks that went by their time, ascending.
    pub expired: Vec<LockId>,
}

impl Step {
    /// Document 01's number: 0, or the refusal's.
    #[must_use]
    pub fn number(&self) -> u32 {
        self.answer.map_or_else(|refusal| refusal.number(), |_| 0)
    }

    /// Whether the feed can't be followed past this place: 17, 18 or 19.
    #[must_use]
    pub fn is_bad(&self) -> bool {
        !self.applied && (17..=19).contains(&self.number())
    }
}

/// What a chunk of a feed gave, see [`Replica::follow`].
#[derive(Clone, Copy, Debug, PartialEq, Eq)]
pub struct Run {
    /// How many records were read, in turn or not.
    pub read: usize,
    /// How many of them were in turn and handed to their operation, refused by it or not.
    pub applied: usize,
    /// Where the last record that was read ends: what is left of the chunk starts here.
    pub place: usize,
    /// Why no more was read: 17, 18 or 19 at this place, none at the chunk's end.
    pub stop: Option<Refusal>,
}

impl Run {
    /// How many records were out of turn, and so passed over.
    #[must_use]
    pub fn passed_over(&self) -> usize {
        self.read - self.applied
    }
}

/// Output buffers of full size, so that 21 can't happen.
struct Room {
    next: Vec<u8>,
    removed: Vec<u8>,
    expired: Vec<u8>,
    sent: Vec<u8>,
}

impl Room {
    fn new() -> Self {
        Self {
            next: vec![0; IMAGE_LIMIT],
            removed: vec![0; REMOVED_LIMIT],
            expired: vec![0; EXPIRED_LIMIT],
            sent: vec![0; RECORD_LIMIT],
        }
    }
}

/// The lock state of an adapter, a primary or a spare, with the sequence number it expects.
///
/// Both are the same thing: an image that the library has accepted, and nothing else that
/// matters; two replicas are equal when their images are. A primary performs each operation and
/// sends on the record of it, which has the primary's own expected number
/// ([`Replica::perform`]); a spare applies what arrives ([`Replica::apply`], and
/// [`Replica::follow`] for many records at once). At a takeover the spare's replica is the
/// primary's from then on, and nothing is converted. For a screen either keeps a board beside its
/// image ([`Replica::watch`]).
pub struct Replica {
    /// An accepted image; its length is the image's.
    image: Vec<u8>,
    /// The image's own board, where one is kept.
    board: Option<Box<[u8; BOARD_BYTES]>>,
    room: Room,
}

impl Replica {
    /// The empty state, expecting number 0.
    #[must_use]
    pub fn empty() -> Self {
        Self::kept(empty_image(0))
    }

    /// The state of an image, if it is one of a sound state: else 17 to 20 with the place in it,
    /// or 12 with the lowest broken rule.
    pub fn from_image(image: &[u8]) -> Result<Self, Refusal> {
        match Refusal::from_told(&library::test(image)) {
            None => Ok(Self::kept(image.to_vec())),
            Some(refusal) => Err(refusal),
        }
    }

    fn kept(image: Vec<u8>) -> Self {
        Self {
            image,
            board: None,
            room: Room::new(),
        }
    }

    /// Takes another image in the place of its own, as a spare does that fetched its primary's; a
    /// board that is kept is made afresh. Where the image is refused, as by
    /// [`Replica::from_image`], all stays as it was.
    pub fn read_in(&mut self, image: &[u8]) -> Result<(), Refusal> {
        let watched = self.board.is_some();
        *self = Self::from_image(image)?;
        if watched {
            self.watch();
        }
        Ok(())
    }

    /// Keeps a board of control units from now on: for each ECU how many locks cover it, and the
    /// lowest id among them ([`Replica::on_ecu`]). It is made here once, and every change goes
    /// along with it, so that a screen may ask at any time. Each change costs a little more then,
    /// and [`Replica::follow`] goes record by record.
    ///
    /// ```
    /// use cablegorse::{Active, Coverage, Lock, LockId, OnEcu, Operation, Replica, Scope};
    ///
    /// let lock = Active {
    ///     lock: Lock {
    ///         id: LockId::from_u128(7),
    ///         scope: Scope::FunctionalGroup(3),
    ///         exclusive: false,
    ///         coverage: Coverage::of(&[5, 6]),
    ///         subject: 1,
    ///         principal: 0,
    ///         metadata: 0,
    ///     },
    ///     expires: 100,
    ///     parent: None,
    /// };
    /// let mut replica = Replica::empty();
    /// assert_eq!(replica.on_ecu(5), None); // not watched
    ///
    /// replica.watch();
    /// assert_eq!(replica.on_ecu(5), Some(OnEcu { locks: 0, lowest: None }));
    ///
    /// replica.perform(&Operation::InsertActive { lock })?;
    /// let lowest = Some(lock.lock.id);
    /// assert_eq!(replica.on_ecu(5), Some(OnEcu { locks: 1, lowest }));
    /// assert_eq!(replica.on_ecu(7), Some(OnEcu { locks: 0, lowest: None }));
    /// # Ok::<(), cablegorse::ListTooLong>(())
    /// ```
    ///
    /// # Panics
    ///
    /// If the library makes no board of an image that it accepted, against its contract.
    pub fn watch(&mut self) {
        let mut board = Box::new([0; BOARD_BYTES]);
        let told = library::board(&self.image, &mut board[..]);
        // The image was accepted, and the buffer has a board's size.
        assert_eq!(told.number, 0, "the library made no board: {told:?}");
        self.board = Some(board);
    }

    /// Keeps no board any more.
    pub fn unwatch(&mut self) {
        self.board = None;
    }

    /// The board, where one is kept: for each ECU from 0 on 17 bytes, the count and the id.
    #[must_use]
    pub fn board(&self) -> Option<&[u8; BOARD_BYTES]> {
        self.board.as_deref()
    }

    /// Which locks cover an ECU; none where no board is kept.
    #[must_use]
    pub fn on_ecu(&self, ecu: u8) -> Option<OnEcu> {
        self.board().map(|board| OnEcu::in_board(board, ecu))
    }

    /// The whole state as bytes. Equal images mean equal locks, revisions and expected numbers.
    #[must_use]
    pub fn image(&self) -> &[u8] {
        &self.image
    }

    fn head(&self) -> Head {
        record::head(&self.image).expect("an accepted image has a HEAD")
    }

    /// The sequence number of the record that is due.
    #[must_use]
    pub fn expected(&self) -> u32 {
        self.head().expected
    }

    /// How many changes went through.
    #[must_use]
    pub fn revision(&self) -> u64 {
        self.head().revision
    }

    /// How many locks are held.
    #[must_use]
    pub fn active_count(&self) -> usize {
        self.head().active
    }

    /// How many defunct locks there are.
    #[must_use]
    pub fn defunct_count(&self) -> usize {
        self.head().defunct
    }

    /// Applies the feed's record at a place, if it is the one that is due.
    ///
    /// 15 (Repeat) and 16 (Ahead) leave the state as it is and give the place of the next
    /// record. 17 to 19 give the same place: the bytes there aren't a record.
    ///
    /// # Panics
    ///
    /// Where the library says that the record was applied and has written no next image, or that
    /// the board which is kept here isn't the image's own.
    pub fn apply(&mut self, feed: &[u8], at: usize) -> Step {
        let Room {
            next,
            removed,
            expired,
            ..
        } = &mut self.room;
        let applied = match &mut self.board {
            None => library::apply(&self.image, feed, at, next, removed, expired),
            Some(board) => library::apply_board(
                &self.image,
                &mut board[..],
                feed,
                at,
                next,
                removed,
                expired,
            ),
        };
        own_board(&applied);
        self.step(&applied, feed, at)
    }

    /// What the library made of the record at this place; its next image becomes our own.
    fn step(&mut self, applied: &Applied, feed: &[u8], at: usize) -> Step {
        let room = &self.room;
        let step = Step {
            answer: match Refusal::from_told(&applied.told) {
                Some(refusal) => Err(refusal),
                None => Ok(done(feed, at, &applied.told)),
            },
            applied: applied.part == Part::Applied,
            sequence: applied.sequence,
            place: applied.place,
            removed: room.removed[..applied.gone * ACTIVE_BYTES]
                .chunks_exact(ACTIVE_BYTES)
                .map(written_active)
                .collect(),
            expired: room.expired[..applied.lapsed * 16]
                .chunks_exact(16)
                .map(written_id)
                .collect(),
        };
        if step.applied {
            self.take_next(applied.written, applied);
        }
        step
    }

    /// Follows a whole chunk of a feed, from its first byte on: the records in it are applied as
    /// [`Replica::apply`] would one after another, and those out of turn are passed over. It ends
    /// at the chunk's end or where no record can be read, and keeps what came before.
    ///
    /// For a spare that has many records to catch up with: the image is read, tested and written
    /// once for all of them. It doesn't say which locks went and what each operation answered; a
    /// host that must know uses [`Replica::apply`]. With a board kept it saves nothing: it goes
    /// record by record.
    ///
    /// After [`Refusal::Torn`] the rest belongs before the bytes that arrive next:
    ///
    /// ```
    /// use cablegorse::{Operation, Refusal, Replica};
    ///
    /// let (mut primary, mut spare) = (Replica::empty(), Replica::empty());
    /// let mut sent = Vec::new();
    /// for now in [10, 20, 30] {
    ///     let (record, _) = primary.perform(&Operation::ExpireDefunct { now })?;
    ///     sent.extend(record);
    /// }
    ///
    /// // The first read ends within the third record, the second brings its rest.
    /// let (first, second) = sent.split_at(40);
    /// let mut arrived = first.to_vec();
    /// let run = spare.follow(&arrived);
    /// assert_eq!((run.read, run.applied, run.place), (2, 2, 32));
    /// assert_eq!(run.stop, Some(Refusal::Torn { offset: 32 }));
    ///
    /// arrived.drain(..run.place);
    /// arrived.extend(second);
    /// let run = spare.follow(&arrived);
    /// assert_eq!((run.applied, run.stop), (1, None));
    /// assert_eq!(spare, primary);
    /// # Ok::<(), cablegorse::ListTooLong>(())
    /// ```
    ///
    /// # Panics
    ///
    /// Where the library has written no next image; with a board kept, as [`Replica::apply`].
    pub fn follow(&mut self, chunk: &[u8]) -> Run {
        if self.board.is_some() {
            return self.follow_by_record(chunk);
        }
        let followed = library::follow(&self.image, chunk, &mut self.room.next);
        self.take_next(followed.written, &followed);
        Run {
            read: followed.read,
            applied: followed.applied,
            place: followed.place,
            stop: Refusal::from_told(&followed.told),
        }
    }

    fn follow_by_record(&mut self, chunk: &[u8]) -> Run {
        let mut run = Run {
            read: 0,
            applied: 0,
            place: 0,
            stop: None,
        };
        while run.place < chunk.len() {
            let step = self.apply(chunk, run.place);
            if step.is_bad() {
                run.stop = step.answer.err();
                break;
            }
            run.read += 1;
            run.applied += usize::from(step.applied);
            run.place = step.place;
        }
        run
    }

    /// Makes the image that was written our own. Kept silently, the old one would make every later
    /// record Ahead.
    fn take_next(&mut self, written: usize, answer: &dyn fmt::Debug) {
        assert!(written > 0, "the library wrote no next image: {answer:?}");
        self.image.clear();
        self.image.extend_from_slice(&self.room.next[..written]);
    }

    /// As a primary: performs the operation, and gives the record to send on, which has the number
    /// that was due. It is to be sent whatever the answer, since the number moved on. Where no
    /// record can hold the operation ([`ListTooLong`]) nothing changed, and there is nothing to
    /// send.
    ///
    /// One call of the library does both, so that nothing can be applied and something else sent.
    /// With a board kept it is two: the record, and then what that record says.
    ///
    /// # Panics
    ///
    /// As [`Replica::apply`].
    pub fn perform(&mut self, operation: &Operation) -> Result<(Vec<u8>, Step), ListTooLong> {
        if self.board.is_none() {
            return self.perform_at_once(operation);
        }
        // The library has no such call with a board.
        let record = operation.record(self.expected())?;
        let step = self.apply(&record, 0);
        Ok((record, step))
    }

    fn perform_at_once(&mut self, operation: &Operation) -> Result<(Vec<u8>, Step), ListTooLong> {
        let (asked, list) = operation.asked();
        let Room {
            next,
            removed,
            expired,
            sent,
        } = &mut self.room;
        let applied = library::perform(&self.image, &asked, &list, next, removed, expired, sent);
        let record = sent[..applied.place].to_vec();
        let step = self.step(&applied, &record, 0);
        match step.answer {
            Err(refusal) if !step.applied => Err(operation.unwritten(refusal)),
            _ => Ok((record, step)),
        }
    }

    /// 001's `delete_defunct`: false where there is no such lock on this scope, 26 where it is
    /// another subject's, else it goes. The expected number stays: on a primary use the feed
    /// instead, as docs/INTEGRATION.md says.
    ///
    /// # Panics
    ///
    /// As [`Replica::apply`].
    pub fn delete_defunct(
        &mut self,
        id: LockId,
        scope: Scope,
        subject: u16,
    ) -> Result<bool, Refusal> {
        let (id, scope, next) = (id.halves(), scope.parts(), &mut self.room.next);
        let applied = match &self.board {
            None => library::delete_defunct(&self.image, id, scope, subject, next),
            Some(board) => {
                library::delete_defunct_board(&self.image, &board[..], id, scope, subject, next)
            }
        };
        own_board(&applied);
        let answer = match Refusal::from_told(&applied.told) {
            Some(refusal) => Err(refusal),
            None => Ok(applied.told.values[0] == 1),
        };
        // At the last revision the lock goes all the same.
        if matches!(answer, Ok(true) | Err(Refusal::RevisionOverflow)) {
            self.take_next(applied.written, &applied);
        }
        answer
    }

    /// 001's `prepare_runtime_update`: the generation from now on, or 25 or 24 while locks that
    /// aren't vehicle locks are held. The generation is the host's to keep.
    pub fn prepare_runtime_update(&self, generation: u64) -> Result<u64, Refusal> {
        let told = library::prepare_runtime_update(&self.image, generation);
        match Refusal::from_told(&told) {
            Some(refusal) => Err(refusal),
            None => Ok(told.values[0]),
        }
    }

    /// All locks that are held, ascending by id.
    pub fn actives(&self) -> impl Iterator<Item = Active> + '_ {
        let end = HEAD_BYTES + self.active_count() * ACTIVE_BYTES;
        self.image[HEAD_BYTES..end]
            .chunks_exact(ACTIVE_BYTES)
            .map(written_active)
    }

    /// All defunct locks, ascending by id.
    pub fn defuncts(&self) -> impl Iterator<Item = Defunct> + '_ {
        let start = HEAD_BYTES + self.active_count() * ACTIVE_BYTES;
        self.image[start..]
            .chunks_exact(DEFUNCT_BYTES)
            .map(written_defunct)
    }

    fn ask(&self, question: u32, x: u64, y: u64, record: &[u8], out: &mut [u8]) -> Told {
        let told = library::read(&self.image, question, x, y, record, out);
        // The image was accepted, the arguments are in range and the buffer is large enough.
        assert_eq!(told.number, 0, "question {question} was refused: {told:?}");
        told
    }

    fn ask_active(&self, question: u32, x: u64, y: u64) -> Option<Active> {
        let mut out = [0; ACTIVE_BYTES];
        let told = self.ask(question, x, y, &[], &mut out);
        (told.values[0] == 1).then(|| written_active(&out))
    }

    fn ask_defunct(&self, question: u32, x: u64, y: u64, record: &[u8]) -> Option<Defunct> {
        let mut out = [0; DEFUNCT_BYTES];
        let told = self.ask(question, x, y, record, &mut out);
        (told.values[0] == 1).then(|| written_defunct(&out))
    }

    /// The lock held on a scope.
    #[must_use]
    pub fn active_for_scope(&self, scope: Scope) -> Option<Active> {
        let (kind, number) = scope.parts();
        self.ask_active(question::ACTIVE_FOR_SCOPE, kind.into(), number.into())
    }

    /// The held lock with this id.
    #[must_use]
    pub fn active_by_id(&self, id: LockId) -> Option<Active> {
        let [x, y] = id.halves();
        self.ask_active(question::ACTIVE_BY_ID, x, y)
    }

    /// The defunct lock with this id.
    #[must_use]
    pub fn defunct_by_id(&self, id: LockId) -> Option<Defunct> {
        let [x, y] = id.halves();
        self.ask_defunct(question::DEFUNCT_BY_ID, x, y, &[])
    }

    /// The held lock at a place, from 0, ascending by id.
    #[must_use]
    pub fn active_at(&self, place: usize) -> Option<Active> {
        self.ask_active(question::ACTIVE_AT, place as u64, 0)
    }

    /// The defunct lock at a place, from 0, ascending by id.
    #[must_use]
    pub fn defunct_at(&self, place: usize) -> Option<Defunct> {
        self.ask_defunct(question::DEFUNCT_AT, place as u64, 0, &[])
    }

    /// The ECU locks that a functional group's lock, held or not, takes along.
    #[must_use]
    pub fn covered_narrow_locks(&self, lock: &Active) -> Vec<LockId> {
        let mut out = [0; 64 * 16];
        let told = self.ask(
            question::COVERED_NARROW_LOCKS,
            0,
            0,
            &lock.encode(),
            &mut out,
        );
        let ids = &out[..told.values[0] as usize * 16];
        ids.chunks_exact(16).map(written_id).collect()
    }

    /// A functional group's lock of this subject that covers the ECU, the lowest id.
    #[must_use]
    pub fn covering_functional_group(&self, subject: u16, ecu: u8) -> Option<Active> {
        self.ask_active(
            question::COVERING_FUNCTIONAL_GROUP,
            subject.into(),
            ecu.into(),
        )
    }

    /// The tester-present signal that a lock of this subject on this scope calls for.
    #[must_use]
    pub fn tester_present_for(&self, subject: u16, scope: Scope) -> Option<TesterPresent> {
        let (kind, number) = scope.parts();
        let scope = u64::from(kind) * 256 + u64::from(number);
        let told = self.ask(
            question::TESTER_PRESENT_FOR,
            subject.into(),
            scope,
            &[],
            &mut [],
        );
        let number = told.values[1] as u8;
        match told.values[0] {
            1 => Some(TesterPresent::Ecu(number)),
            2 => Some(TesterPresent::Functional(number)),
            _ => None,
        }
    }

    /// Whether a held lock still calls for this signal.
    #[must_use]
    pub fn tester_present_needed(&self, signal: TesterPresent) -> bool {
        let (x, y) = match signal {
            TesterPresent::Ecu(ecu) => (1, ecu),
            TesterPresent::Functional(group) => (2, group),
        };
        self.ask(question::TESTER_PRESENT_NEEDED, x, y.into(), &[], &mut [])
            .values[0]
            == 1
    }

    /// A defunct lock of this subject whose time isn't over, which a lock on this scope with this
    /// coverage would touch but not supersede: the lowest id.
    #[must_use]
    pub fn uncovered_defunct(
        &self,
        subject: u16,
        scope: Scope,
        coverage: Coverage,
        now: u64,
    ) -> Option<Defunct> {
        // Only these three of a lock are meant.
        let lock = crate::types::Lock {
            id: LockId::default(),
            scope,
            exclusive: false,
            coverage,
            subject,
            principal: 0,
            metadata: 0,
        };
        let meant = Active {
            lock,
            expires: 0,
            parent: None,
        };
        self.ask_defunct(question::UNCOVERED_DEFUNCT, now, 0, &meant.encode())
    }

    /// Who holds what a defunct lock, in the state or not, was replaced by in the end. Look the lock
    /// up again before asking again: while others are cleared its holder stays, but a copy from
    /// before may name one that is gone.
    #[must_use]
    pub fn current_holder(&self, defunct: &Defunct) -> Holder {
        let told = self.ask(question::CURRENT_HOLDER, 0, 0, &defunct.encode(), &mut []);
        Holder {
            subject: told.values[0] as u16,
            links: told.values[1] as u8,
        }
    }

    /// The subject of the vehicle lock.
    #[must_use]
    pub fn vehicle_lock_owner_sub(&self) -> Option<u16> {
        let told = self.ask(question::VEHICLE_LOCK_OWNER_SUB, 0, 0, &[], &mut []);
        (told.values[0] == 1).then_some(told.values[1] as u16)
    }

    /// Whether a lock that isn't a vehicle lock is held.
    #[must_use]
    pub fn has_non_vehicle_locks(&self) -> bool {
        self.ask(question::HAS_NON_VEHICLE_LOCKS, 0, 0, &[], &mut [])
            .values[0]
            == 1
    }
}

impl Default for Replica {
    fn default() -> Self {
        Self::empty()
    }
}

impl Clone for Replica {
    fn clone(&self) -> Self {
        Self {
            board: self.board.clone(),
            ..Self::kept(self.image.clone())
        }
    }
}

impl PartialEq for Replica {
    fn eq(&self, other: &Self) -> bool {
        self.image == other.image
    }
}

impl Eq for Replica {}

impl fmt::Debug for Replica {
    fn fmt(&self, f: &mut fmt::Formatter<'_>) -> fmt::Result {
        f.debug_struct("Replica")
            .field("revision", &self.revision())
            .field("expected", &self.expected())
            .field("active", &self.actives().collect::<Vec<_>>())
            .field("defunct", &self.defuncts().collect::<Vec<_>>())
            .finish()
    }
}

/// 28 of a board that nobody else writes is damaged memory, or a library that breaks its promise.
/// Told as an answer it would be a record that a primary sends on and hasn't applied.
fn own_board(applied: &Applied) {
    let mismatch = Refusal::from_told(&applied.told) == Some(Refusal::BoardMismatch);
    assert!(!mismatch, "the board that is kept isn't the image's own");
}

/// What a 0 means depends on the record's kind, which the library has just read.
fn done(feed: &[u8], at: usize, told: &Told) -> Done {
    let kind = feed.get(at + 2).copied().unwrap_or_default();
    match (kind, told.values[0]) {
        (20, 1) => Done::Stale,
        (20, 2) => Done::NotDue {
            expires: told.values[1],
        },
        (22, 0) => Done::Absent,
        _ => Done::Done,
    }
}

// What the library writes can be read: these never fail.

fn written_active(record: &[u8]) -> Active {
    Active::decode(record).expect("an ACTIVE record that the library accepted")
}

fn written_defunct(record: &[u8]) -> Defunct {
    Defunct::decode(record).expect("a DEFUNCT record that the library accepted")
}

fn written_id(bytes: &[u8]) -> LockId {
    LockId(bytes.try_into().expect("16 bytes"))
}

#[cfg(test)]
mod tests {
    use super::*;

    #[test]
    #[should_panic(expected = "the library wrote no next image")]
    fn an_applied_record_without_an_image_is_no_secret() {
        let applied = Applied {
            told: Told::default(),
            part: Part::Applied,
            sequence: 7,
            place: 16,
            written: 0,
            gone: 0,
            lapsed: 0,
        };
        Replica::empty().take_next(applied.written, &applied);
    }

    /// A watched replica with a byte of its board changed.
    fn damaged() -> Replica {
        let mut replica = Replica::empty();
        replica.watch();
        replica.board.as_mut().expect("it is watched")[17 * 200 + 3] ^= 0x10;
        replica
    }

    #[test]
    #[should_panic(expected = "the board that is kept isn't the image's own")]
    fn a_damaged_board_ends_a_change() {
        let _ = damaged().perform(&Operation::ExpireDefunct { now: 0 });
    }

    #[test]
    #[should_panic(expected = "the board that is kept isn't the image's own")]
    fn a_damaged_board_ends_a_deletion() {
        let _ = damaged().delete_defunct(LockId::default(), Scope::Vehicle, 1);
    }

    #[test]
    fn a_damaged_board_is_made_afresh() {
        let mut replica = damaged();
        replica.watch();
        assert_eq!(replica.board(), Some(&[0; BOARD_BYTES]));
        assert!(replica.apply(&[], 0).is_bad());
    }
}
