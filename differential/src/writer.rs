// SPDX-License-Identifier: Apache-2.0
//! 02, C-12: an operation written as a record, and performed together with its record, as
//! [`crate::pair`] has the functions that read records. Every record is held to the bytes of the
//! judge's own writer.

use cablegorse::{LIST_LIMIT, ListTooLong, Replica, library};
use oracle::{
    asked::Asked,
    board,
    boundary::{self, Applied, Own, Told},
    generate::{self, Rng},
    judge::Judge,
    model::Operation,
    wire,
};

use crate::{
    pair::{Buffers, Subject, applied, hex, told},
    run::{FEED_NAMES, Run, check_step, lengths},
    tally::{CASES, Tally, WRITTEN, label},
    words,
};

/// The judge's numbers as the library takes them.
#[must_use]
pub fn asked(asked: &Asked) -> library::Asked {
    let [w0, w1, w2, w3] = asked.set;
    library::Asked {
        hi: asked.id[0],
        lo: asked.id[1],
        parenthi: asked.parent[0],
        parentlo: asked.parent[1],
        w0,
        w1,
        w2,
        w3,
        expires: asked.expires,
        now: asked.now,
        principal: asked.principal,
        metadata: asked.metadata,
        breaker: asked.breaker,
        kind: asked.kind,
        subject: asked.subject,
        scope: asked.scope,
        number: asked.number,
        exclusive: asked.exclusive,
        coverage: asked.coverage,
        child: asked.child,
        given: asked.given,
    }
}

/// A record written on both sides. `length` is the output's.
pub fn write_record(
    buffers: &mut Buffers,
    sequence: u32,
    numbers: &Asked,
    list: &[u64],
    length: usize,
) -> Told {
    buffers.fill([length]);
    let due = boundary::write_record(sequence, numbers, list, &mut buffers.theirs[0]);
    let out = &mut buffers.ours[0];
    let got = told(library::write_record(sequence, &asked(numbers), list, out));
    if got != due || buffers.ours != buffers.theirs {
        panic!(
            "write_record differs\n{sequence}, {numbers:?}\nlist {list:?}, out {length}\nlibrary {got:?} {}\njudge   {due:?} {}",
            hex(&buffers.ours[0]),
            hex(&buffers.theirs[0]),
        );
    }
    due
}

/// An operation performed on both sides. `lengths` gives the buffers' lengths from those needed.
pub fn perform(
    buffers: &mut Buffers,
    subject: &Subject<'_>,
    numbers: &Asked,
    list: &[u64],
    lengths: impl FnOnce([usize; 4]) -> [usize; 4],
) -> (Applied, Own) {
    let own = boundary::own(subject.judge, subject.expected, numbers, list);
    buffers.fill(lengths(own.needed()));
    let due = own.put(buffers.theirs.each_mut().map(Vec::as_mut_slice));
    same_perform(buffers, subject.image, numbers, list, &due);
    (due, own)
}

/// The same on any bytes, judged from nothing.
pub fn perform_bytes(
    buffers: &mut Buffers,
    image: &[u8],
    numbers: &Asked,
    list: &[u64],
    lengths: [usize; 4],
) -> Applied {
    buffers.fill(lengths);
    let outputs = buffers.theirs.each_mut().map(Vec::as_mut_slice);
    let due = boundary::perform(image, numbers, list, outputs);
    same_perform(buffers, image, numbers, list, &due);
    due
}

/// The library's side of what the judge has done.
fn same_perform(buffers: &mut Buffers, image: &[u8], numbers: &Asked, list: &[u64], due: &Applied) {
    let [next, removed, expired, sent] = &mut buffers.ours;
    let got = applied(library::perform(
        image,
        &asked(numbers),
        list,
        next,
        removed,
        expired,
        sent,
    ));
    if got != *due || buffers.ours != buffers.theirs {
        panic!(
            "perform differs\nimage {}\n{numbers:?}\nlist {list:?}\nlibrary {got:?}\njudge   {due:?}\nbuffers {:?} agree: {:?}",
            hex(image),
            buffers.ours.each_ref().map(Vec::len),
            [0, 1, 2, 3].map(|i| buffers.ours[i] == buffers.theirs[i]),
        );
    }
}

/// Whether a kind's operation brings a lock.
fn brings_a_lock(kind: u16) -> bool {
    matches!(kind, 16 | 17 | 21)
}

/// Whether a kind's operation takes a list.
fn takes_a_list(kind: u16) -> bool {
    matches!(kind, 17 | 21)
}

/// The same operation with anything where nothing is read.
fn garbled(rng: &mut Rng, numbers: &Asked, list: &[u64]) -> (Asked, Vec<u64>) {
    let (mut asked, odd) = (*numbers, any_numbers(rng));
    let (kind, lock) = (numbers.kind, brings_a_lock(numbers.kind));
    if !lock {
        (asked.subject, asked.principal) = (odd.subject, odd.principal);
        (asked.scope, asked.exclusive) = (odd.scope, odd.exclusive);
        (asked.coverage, asked.child) = (odd.coverage, odd.child);
    }
    if kind == 23 {
        asked.id = odd.id;
    }
    if !lock || numbers.child == 0 {
        asked.parent = odd.parent;
    }
    if !lock || numbers.coverage == 0 {
        asked.set = odd.set;
    }
    if !lock && kind != 18 {
        asked.expires = odd.expires;
    }
    if !matches!(kind, 18 | 20 | 21 | 23) {
        asked.now = odd.now;
    }
    if !lock || numbers.scope == 0 {
        asked.number = odd.number;
    }
    if kind != 21 {
        asked.breaker = odd.breaker;
    }
    if kind != 18 {
        asked.given = odd.given;
    }
    if !lock && (kind != 18 || numbers.given == 0) {
        asked.metadata = odd.metadata;
    }
    if takes_a_list(kind) {
        return (asked, list.to_vec());
    }
    let length = [0, 1, 2, 130, 131][rng.below(5)];
    (asked, (0..length).map(|_| rng.word()).collect())
}

/// Numbers of no operation in particular.
fn any_numbers(rng: &mut Rng) -> Asked {
    let mut word = || rng.word();
    Asked {
        id: [word(), word()],
        parent: [word(), word()],
        set: [word(), word(), word(), word()],
        expires: word(),
        now: word(),
        principal: word() as u32,
        metadata: word() as u32,
        breaker: word() as u32,
        kind: word() as u16,
        subject: word() as u16,
        scope: word() as u8,
        number: word() as u8,
        exclusive: word() as u8,
        coverage: word() as u8,
        child: word() as u8,
        given: word() as u8,
    }
}

/// What the writer is to pass over in these numbers.
fn passed_over(numbers: &Asked, list: &[u64]) -> Vec<&'static str> {
    let lock = brings_a_lock(numbers.kind);
    let cases = [
        (
            "a whole vehicle's set",
            lock && numbers.coverage == 0 && numbers.set != [0; 4],
        ),
        (
            "a vehicle's number",
            lock && numbers.scope == 0 && numbers.number != 0,
        ),
        (
            "a parent of none",
            lock && numbers.child == 0 && numbers.parent != [0; 2],
        ),
        (
            "metadata that isn't given",
            numbers.kind == 18 && numbers.given == 0 && numbers.metadata != 0,
        ),
        (
            "a list where none is taken",
            !takes_a_list(numbers.kind) && !list.is_empty(),
        ),
        (
            "half an id where none is taken",
            !takes_a_list(numbers.kind) && list.len() % 2 == 1,
        ),
    ];
    cases
        .iter()
        .filter(|(_, is)| *is)
        .map(|(name, _)| *name)
        .collect()
}

/// What is to be seen now and then, besides the answers.
pub const WANTED: [&str; 11] = [
    "a whole vehicle's set",
    "a vehicle's number",
    "a parent of none",
    "metadata that isn't given",
    "a list where none is taken",
    "half an id where none is taken",
    "numbers of no operation",
    "a record read and written again",
    "an output of perform too short",
    "a damaged image performed on",
    "a replica as primary",
];

impl Run {
    /// The operation as a primary has it: written with this number, performed, and now and then
    /// with numbers that are wrong. What performing gives, by the judge.
    pub(crate) fn as_a_primary(
        &mut self,
        subject: &Subject<'_>,
        operation: &Operation,
        sequence: u32,
    ) -> Own {
        let (mut numbers, mut list) = Asked::of(operation).expect("a feed operation");
        by_the_crate(operation, sequence, &numbers, &list);
        let rng = &mut self.writer;
        if rng.percent(50) {
            (numbers, list) = garbled(rng, &numbers, &list);
            // The judge reads the same operation.
            assert_eq!(numbers.operation(&list).as_ref(), Ok(operation));
        }
        for case in passed_over(&numbers, &list) {
            self.tally.see(CASES, case.to_owned());
        }
        let own = self.both(subject, &numbers, &list, sequence);
        if self.writer.percent(10) {
            self.damaged_and_again(&own.sent);
        }
        if self.writer.percent(10) {
            self.by_a_replica(subject, operation, &own);
        }
        if self.writer.percent(5) {
            let (numbers, list) = self.wrong(&numbers, &list);
            self.both(subject, &numbers, &list, sequence);
        }
        own
    }

    /// Written and performed.
    fn both(&mut self, subject: &Subject<'_>, numbers: &Asked, list: &[u64], sequence: u32) -> Own {
        let rng = &mut self.writer;
        let (applied, own) = perform(&mut self.buffers, subject, numbers, list, |needed| {
            lengths(rng, needed)
        });
        let [length] = lengths(rng, [own.sent.len()]);
        let told = write_record(&mut self.buffers, sequence, numbers, list, length);
        self.tally.calls += 2;
        self.tally.see("write_record", label(&told));
        self.tally.see("perform", label(&applied.told));
        if applied.part == 3 {
            self.tally
                .see(CASES, "an output of perform too short".to_owned());
        }
        if told.number == 0 {
            let name = FEED_NAMES[usize::from(numbers.kind - 16)];
            self.tally.see(WRITTEN, name.to_owned());
        }
        own
    }

    /// A replica performs it, with a board or without: the same step, the same record.
    fn by_a_replica(&mut self, subject: &Subject<'_>, operation: &Operation, own: &Own) {
        let Some(word) = words::operation(operation) else {
            return;
        };
        let mut replica = Replica::from_image(subject.image).expect("a sound state");
        if self.writer.percent(50) {
            replica.watch();
        }
        match replica.perform(&word) {
            Ok((record, step)) => {
                assert_eq!(record, own.sent, "{operation:?}");
                check_step(&step, &own.full, &replica, subject.image);
            }
            Err(ListTooLong { ids }) => {
                assert_eq!(own.full.applied.told.number, 29);
                assert!(ids > LIST_LIMIT, "{operation:?}");
                assert_eq!(replica.image(), subject.image);
            }
        }
        if let (Some(board), Some(after)) = (replica.board(), &own.full.after) {
            assert_eq!(board[..], board::board(after), "{operation:?}");
        }
        self.tally.calls += 1;
        self.tally.see(CASES, "a replica as primary".to_owned());
    }

    /// A kind that no feed has, a number that its field can't have, or no operation at all.
    fn wrong(&mut self, numbers: &Asked, list: &[u64]) -> (Asked, Vec<u64>) {
        let rng = &mut self.writer;
        let mut wrong = *numbers;
        let any = rng.word() as u8;
        let high = [2, 3, 255, any.max(2)][rng.below(4)];
        match rng.below(8) {
            0 => wrong.kind = [0, 1, 2, 15, 24, 26, 272, 0x1000, u16::MAX][rng.below(9)],
            1 => wrong.scope = high.max(3),
            2 => wrong.exclusive = high,
            3 => wrong.coverage = high,
            4 => wrong.child = high,
            5 => wrong.given = high,
            6 => return (wrong, (0..rng.below(140)).map(|_| rng.word()).collect()),
            _ => {
                wrong = any_numbers(rng);
                wrong.kind = wrong.kind % 16 + 12;
                self.tally.see(CASES, "numbers of no operation".to_owned());
            }
        }
        (wrong, list.to_vec())
    }

    /// Some byte of a record changed: if it still is one, it is written back.
    fn damaged_and_again(&mut self, record: &[u8]) {
        let mut bytes = record.to_vec();
        generate::damage(&mut self.writer, &mut bytes);
        self.again(&bytes);
    }

    /// A record that the reader accepts, taken apart and written again, gives the same bytes.
    pub(crate) fn again(&mut self, bytes: &[u8]) {
        let Ok(read) = wire::read_feed(bytes, 0) else {
            return;
        };
        let (numbers, list) = Asked::of(&read.operation).expect("a feed operation");
        let mut out = vec![0; read.next];
        let got = library::write_record(read.sequence, &asked(&numbers), &list, &mut out);
        assert_eq!(told(got), Told::new(0, &[read.next as u64]), "{numbers:?}");
        assert_eq!(hex(&out), hex(&bytes[..read.next]), "{numbers:?}");
        self.tally.calls += 1;
        self.tally
            .see(CASES, "a record read and written again".to_owned());
    }

    /// A damaged or unsound image: that is told before anything else, whatever is asked.
    pub(crate) fn performed_on_bytes(&mut self, image: &[u8], operation: &Operation) {
        let Some((mut numbers, mut list)) = Asked::of(operation) else {
            return;
        };
        if self.writer.percent(50) {
            (numbers, list) = self.wrong(&numbers, &list);
        }
        let lengths = lengths(&mut self.writer, [image.len(), 0, 0, 200]);
        let applied = perform_bytes(&mut self.buffers, image, &numbers, &list, lengths);
        self.tally.calls += 1;
        self.tally
            .see("perform on a damaged image", label(&applied.told));
        if applied.part == 0 {
            self.tally
                .see(CASES, "a damaged image performed on".to_owned());
        }
    }

    /// Each record of the image's into every buffer up to its size and a little more, alone and
    /// performed; and performed with each output a byte short.
    #[must_use]
    pub fn every_room(image: &[u8], records: &[Vec<u8>]) -> Tally {
        let mut run = Self::new(21);
        let (state, expected) = wire::read_image(image).expect("an image");
        let mut judge = Judge::new(&state);
        let subject = Subject::new(image, &mut judge, expected);
        for record in records {
            let read = wire::read_feed(record, 0).expect("a record");
            let (numbers, list) = Asked::of(&read.operation).expect("a feed operation");
            for length in 0..record.len() + 4 {
                run.room(&subject, &numbers, &list, length);
            }
            for which in 0..4 {
                let (applied, own) =
                    perform(&mut run.buffers, &subject, &numbers, &list, |mut needed| {
                        needed[which] = needed[which].saturating_sub(1);
                        needed
                    });
                run.tally.see("perform", label(&applied.told));
                let short = own.needed()[which] > 0;
                assert_eq!(applied.part, if short { 3 } else { 2 });
                run.tally.calls += 1;
            }
        }
        run.tally
    }

    /// One length for the record; what else is performed has room.
    fn room(&mut self, subject: &Subject<'_>, numbers: &Asked, list: &[u64], length: usize) {
        let sequence = subject.expected.wrapping_add(1);
        let told = write_record(&mut self.buffers, sequence, numbers, list, length);
        self.tally.see("write_record", label(&told));
        let (applied, _) = perform(&mut self.buffers, subject, numbers, list, |needed| {
            [needed[0], needed[1], needed[2], length]
        });
        self.tally.see("perform", label(&applied.told));
        self.tally.calls += 2;
    }

    /// Lists about the limit and of half ids, for every kind, into buffers of many lengths: 14,
    /// then 29, then 21.
    #[must_use]
    pub fn every_list(image: &[u8]) -> Tally {
        let mut run = Self::new(23);
        let (state, expected) = wire::read_image(image).expect("an image");
        let mut judge = Judge::new(&state);
        let subject = Subject::new(image, &mut judge, expected);
        // 0, 1, 63, 64, 65 ids and their neighbours.
        for words in [0, 1, 2, 3, 125, 126, 127, 128, 129, 130, 131, 132, 256, 257] {
            for kind in 16..=23 {
                let mut numbers = any_numbers(&mut run.writer);
                (numbers.kind, numbers.scope) = (kind, 1);
                (numbers.exclusive, numbers.coverage) = (1, 1);
                (numbers.child, numbers.given) = (0, 1);
                // Repeats among them, and no order.
                let list: Vec<u64> = (0..words).map(|at| (at * at) as u64 % 7).collect();
                let mut out = vec![0; 4096];
                let told = boundary::write_record(expected, &numbers, &list, &mut out);
                let size = if told.number == 0 {
                    told.values[0] as usize
                } else {
                    1133
                };
                for length in [0, 1, 100, size - 1, size, size + 1, 2000] {
                    run.room(&subject, &numbers, &list, length);
                }
                assert_eq!(
                    told.number,
                    due_of_a_list(kind, words),
                    "{kind}, {words} words"
                );
                run.tally
                    .see("write_record, lists about the limit", label(&told));
            }
        }
        run.tally
    }

    /// Many kinds, among them each that ends in a byte like a feed's, and every value of the small
    /// fields in each operation; some of them performed.
    #[must_use]
    pub fn every_number(image: &[u8]) -> Tally {
        let mut run = Self::new(25);
        let (state, expected) = wire::read_image(image).expect("an image");
        let mut judge = Judge::new(&state);
        let subject = Subject::new(image, &mut judge, expected);
        let plain = Asked {
            id: [1, 2],
            parent: [3, 4],
            set: [5, 6, 7, 8],
            ..Asked::default()
        };
        let ends = (0..=255).flat_map(|high| (15..=24).map(move |low| high << 8 | low));
        for kind in (0..=300).chain(ends) {
            run.numbers(&Asked { kind, ..plain });
        }
        for kind in 15..=24 {
            for field in SMALL {
                let mut numbers = Asked { kind, ..plain };
                for value in 0..=255 {
                    field(&mut numbers, value);
                    run.numbers(&numbers);
                }
                let list = WRONG_LIST;
                let (applied, _) = perform(&mut run.buffers, &subject, &numbers, &list, |_| [0; 4]);
                run.tally.see("perform", label(&applied.told));
                run.tally.calls += 1;
            }
        }
        run.tally
    }

    /// With room; and with a wrong list and none: wrong numbers are told first.
    fn numbers(&mut self, numbers: &Asked) {
        for (list, length) in [(&[][..], 120), (&WRONG_LIST, 0)] {
            let told = write_record(&mut self.buffers, 7, numbers, list, length);
            self.tally.see("write_record", label(&told));
            self.tally.calls += 1;
        }
    }

    /// An image that is cut is told before anything that is asked.
    pub(crate) fn performed_on_a_cut(&mut self, cut: &[u8]) {
        let numbers = Asked::default();
        let applied = perform_bytes(&mut self.buffers, cut, &numbers, &WRONG_LIST, [0; 4]);
        assert_eq!(applied.part, 0);
    }
}

/// The crate's own operation has the same numbers and the same record.
fn by_the_crate(operation: &Operation, sequence: u32, numbers: &Asked, list: &[u64]) {
    let Some(word) = words::operation(operation) else {
        return;
    };
    let numbers = (asked(numbers), list.to_vec());
    assert_eq!(word.asked(), numbers, "{operation:?}");
    let due = wire::write_feed(operation, sequence);
    assert_eq!(word.record(sequence).ok(), due, "{operation:?}");
}

/// Half an id too much, and more ids than a record holds.
const WRONG_LIST: [u64; 131] = [7; 131];

/// The fields of a byte.
const SMALL: [fn(&mut Asked, u8); 6] = [
    |numbers, value| numbers.scope = value,
    |numbers, value| numbers.number = value,
    |numbers, value| numbers.exclusive = value,
    |numbers, value| numbers.coverage = value,
    |numbers, value| numbers.child = value,
    |numbers, value| numbers.given = value,
];

/// What a list of so many words is told, by 02.
fn due_of_a_list(kind: u16, words: usize) -> u32 {
    match words {
        _ if !takes_a_list(kind) => 0,
        _ if words % 2 == 1 => 14,
        _ if words > 128 => 29,
        _ => 0,
    }
}
