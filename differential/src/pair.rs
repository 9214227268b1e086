// SPDX-License-Identifier: Apache-2.0
//! One call to the library and one to the judge, compared. A difference panics with the input.

use cablegorse::library;
use oracle::{
    boundary::{self, Applied, Followed, Full, Told},
    judge::{Judge, Spare},
    model::{Operation, Scope},
};

/// Output buffers for both sides, filled with a pattern before each call.
#[derive(Default)]
pub struct Buffers {
    pattern: u8,
    pub(crate) ours: [Vec<u8>; 4],
    pub(crate) theirs: [Vec<u8>; 4],
}

impl Buffers {
    /// The first buffers of these lengths, filled anew with another pattern; the others empty.
    pub(crate) fn fill<const N: usize>(&mut self, lengths: [usize; N]) {
        self.pattern = self.pattern.wrapping_add(0x35) | 1;
        for side in [&mut self.ours, &mut self.theirs] {
            for (place, buffer) in side.iter_mut().enumerate() {
                buffer.clear();
                buffer.resize(lengths.get(place).copied().unwrap_or(0), self.pattern);
            }
        }
    }
}

pub(crate) fn hex(bytes: &[u8]) -> String {
    bytes.iter().map(|byte| format!("{byte:02x}")).collect()
}

/// The library's answer in the judge's words.
pub fn told(told: library::Told) -> Told {
    Told {
        number: told.number,
        count: told.count,
        values: told.values,
    }
}

/// The same of a change.
pub fn applied(applied: library::Applied) -> Applied {
    Applied {
        told: told(applied.told),
        part: applied.part.number(),
        sequence: applied.sequence,
        place: applied.place as u64,
        written: applied.written as u64,
        gone: applied.gone as u64,
        lapsed: applied.lapsed as u64,
    }
}

/// The same of a chunk.
pub fn followed(followed: library::Followed) -> Followed {
    Followed {
        told: told(followed.told),
        part: followed.part.number(),
        expected: followed.expected,
        place: followed.place as u64,
        read: followed.read as u64,
        applied: followed.applied as u64,
        written: followed.written as u64,
    }
}

/// An image, the judge that holds its state, and the judge's board of it.
pub struct Subject<'a> {
    pub image: &'a [u8],
    pub judge: &'a mut Judge,
    pub expected: u32,
    pub board: Vec<u8>,
}

impl<'a> Subject<'a> {
    #[must_use]
    pub fn new(image: &'a [u8], judge: &'a mut Judge, expected: u32) -> Self {
        let board = judge.board();
        Self {
            image,
            judge,
            expected,
            board,
        }
    }
}

/// Applies one record on both sides. `lengths` gives the buffers' lengths from those needed.
pub fn apply(
    buffers: &mut Buffers,
    subject: &Subject<'_>,
    feed: &[u8],
    at: usize,
    lengths: impl FnOnce([usize; 3]) -> [usize; 3],
) -> (Applied, Full) {
    let full = boundary::step(subject.judge, subject.expected, feed, at);
    let needed = [&full.next, &full.removed, &full.expired].map(Vec::len);
    buffers.fill(lengths(needed));
    let [next, removed, expired, _] = &mut buffers.theirs;
    let due = full.put(at, next, removed, expired);
    let [next, removed, expired, _] = &mut buffers.ours;
    let got = applied(library::apply(
        subject.image,
        feed,
        at,
        next,
        removed,
        expired,
    ));
    if got != due || buffers.ours != buffers.theirs {
        panic!(
            "apply differs\nimage {}\nfeed {} at {at}\nlibrary {got:?}\njudge   {due:?}\nbuffers agree: {:?}",
            hex(subject.image),
            hex(feed),
            [0, 1, 2].map(|i| buffers.ours[i] == buffers.theirs[i]),
        );
    }
    (due, full)
}

/// Any bytes as image and feed, judged from nothing.
pub fn apply_bytes(
    buffers: &mut Buffers,
    image: &[u8],
    feed: &[u8],
    at: usize,
    lengths: [usize; 3],
) -> Applied {
    buffers.fill(lengths);
    let [next, removed, expired, _] = &mut buffers.theirs;
    let due = boundary::apply(image, feed, at, next, removed, expired);
    let [next, removed, expired, _] = &mut buffers.ours;
    let got = applied(library::apply(image, feed, at, next, removed, expired));
    if got != due || buffers.ours != buffers.theirs {
        panic!(
            "apply differs on bytes\nimage {}\nfeed {} at {at}, buffers {lengths:?}\nlibrary {got:?}\njudge   {due:?}",
            hex(image),
            hex(feed),
        );
    }
    due
}

/// Follows a chunk on both sides, by the judge from its own state and not from the image.
/// `lengths` gives the buffers' lengths from the one needed; the last one's answer is returned.
pub fn follow(
    buffers: &mut Buffers,
    image: &[u8],
    spare: Spare,
    chunk: &[u8],
    lengths: impl FnOnce(usize) -> Vec<usize>,
) -> (Followed, boundary::Run) {
    let run = boundary::run(spare, chunk);
    let mut last = Followed::default();
    for length in lengths(run.next.len()) {
        buffers.fill([length, 0, 0]);
        last = run.put(&mut buffers.theirs[0]);
        same_follow(buffers, image, chunk, &last);
    }
    (last, run)
}

/// Any bytes as image and chunk, judged from nothing.
pub fn follow_bytes(buffers: &mut Buffers, image: &[u8], chunk: &[u8], length: usize) -> Followed {
    buffers.fill([length, 0, 0]);
    let due = boundary::follow(image, chunk, &mut buffers.theirs[0]);
    same_follow(buffers, image, chunk, &due);
    due
}

/// The library's side of a run whose judge's side is done.
fn same_follow(buffers: &mut Buffers, image: &[u8], chunk: &[u8], due: &Followed) {
    let got = followed(library::follow(image, chunk, &mut buffers.ours[0]));
    if got != *due || buffers.ours != buffers.theirs {
        panic!(
            "follow differs\nimage {}\nchunk {}, next {}\nlibrary {got:?}\njudge   {due:?}\nbuffers agree: {}",
            hex(image),
            hex(chunk),
            buffers.ours[0].len(),
            buffers.ours == buffers.theirs,
        );
    }
}

fn parts(scope: Scope) -> (u8, u8) {
    match scope {
        Scope::Vehicle => (0, 0),
        Scope::Ecu(ecu) => (1, ecu),
        Scope::Group(group) => (2, group),
    }
}

/// What `delete_defunct` is called with: the id, the scope and who asks.
pub(crate) fn deletion(operation: &Operation) -> ([u64; 2], (u8, u8), u16) {
    let Operation::DeleteDefunct { id, scope, subject } = operation else {
        panic!("not delete_defunct: {operation:?}");
    };
    (id.words(), parts(*scope), *subject)
}

/// `delete_defunct` on both sides.
pub fn delete_defunct(
    buffers: &mut Buffers,
    subject: &Subject<'_>,
    operation: &Operation,
    length: impl FnOnce(usize) -> usize,
) -> Applied {
    let (id, scope, owner) = deletion(operation);
    let needed = subject.image.len();
    buffers.fill([length(needed), 0, 0]);
    let due = boundary::dropped(
        subject.judge,
        subject.expected,
        operation,
        &mut buffers.theirs[0],
    );
    let got = applied(library::delete_defunct(
        subject.image,
        id,
        scope,
        owner,
        &mut buffers.ours[0],
    ));
    if got != due || buffers.ours != buffers.theirs {
        panic!(
            "delete_defunct differs\nimage {}\n{operation:?}\nlibrary {got:?}\njudge   {due:?}",
            hex(subject.image)
        );
    }
    due
}

/// `delete_defunct` with any numbers and bytes, judged from nothing.
pub fn delete_defunct_bytes(
    buffers: &mut Buffers,
    image: &[u8],
    id: [u64; 2],
    scope: (u8, u8),
    subject: u16,
    length: usize,
) -> Applied {
    buffers.fill([length, 0, 0]);
    let due =
        boundary::delete_defunct(image, id, scope.0, scope.1, subject, &mut buffers.theirs[0]);
    let got = applied(library::delete_defunct(
        image,
        id,
        scope,
        subject,
        &mut buffers.ours[0],
    ));
    if got != due || buffers.ours != buffers.theirs {
        panic!(
            "delete_defunct differs on bytes\nimage {}\n{id:?} {scope:?} {subject}\nlibrary {got:?}\njudge   {due:?}",
            hex(image)
        );
    }
    due
}

/// A read's arguments.
#[derive(Clone, Copy, Debug)]
pub struct Question<'a> {
    pub number: u32,
    pub x: u64,
    pub y: u64,
    pub record: &'a [u8],
}

/// A read on both sides.
pub fn read(
    buffers: &mut Buffers,
    subject: &mut Subject<'_>,
    asked: Question<'_>,
    length: usize,
) -> Told {
    let Question {
        number,
        x,
        y,
        record,
    } = asked;
    buffers.fill([length, 0, 0]);
    let due = boundary::ask(subject.judge, number, x, y, record, &mut buffers.theirs[0]);
    let got = told(library::read(
        subject.image,
        number,
        x,
        y,
        record,
        &mut buffers.ours[0],
    ));
    if got != due || buffers.ours != buffers.theirs {
        panic!(
            "read differs\nimage {}\n{asked:?}, out {length}\nlibrary {got:?}\njudge   {due:?}",
            hex(subject.image)
        );
    }
    due
}

/// A read of any bytes, judged from nothing.
pub fn read_bytes(buffers: &mut Buffers, image: &[u8], asked: Question<'_>, length: usize) -> Told {
    let Question {
        number,
        x,
        y,
        record,
    } = asked;
    buffers.fill([length, 0, 0]);
    let due = boundary::read(image, number, x, y, record, &mut buffers.theirs[0]);
    let got = told(library::read(
        image,
        number,
        x,
        y,
        record,
        &mut buffers.ours[0],
    ));
    if got != due || buffers.ours != buffers.theirs {
        panic!(
            "read differs on bytes\nimage {}\n{asked:?}, out {length}\nlibrary {got:?}\njudge   {due:?}",
            hex(image)
        );
    }
    due
}

/// The image's test on both sides.
pub fn test(image: &[u8]) -> Told {
    let (got, due) = (told(library::test(image)), boundary::test(image));
    assert_eq!(
        got,
        due,
        "test differs (library, judge)\nimage {}",
        hex(image)
    );
    due
}

/// `prepare_runtime_update` on both sides.
pub fn prepare(subject: &Subject<'_>, generation: u64) -> Told {
    let got = told(library::prepare_runtime_update(subject.image, generation));
    let due = boundary::prepared(subject.judge, generation);
    assert_eq!(
        got,
        due,
        "prepare_runtime_update {generation} differs (library, judge)\nimage {}",
        hex(subject.image)
    );
    due
}

/// `prepare_runtime_update` of any bytes, judged from nothing.
pub fn prepare_bytes(image: &[u8], generation: u64) -> Told {
    let got = told(library::prepare_runtime_update(image, generation));
    let due = boundary::prepare_runtime_update(image, generation);
    assert_eq!(
        got,
        due,
        "prepare_runtime_update {generation} differs (library, judge)\nimage {}",
        hex(image)
    );
    due
}

/// The response class of a number on both sides.
pub fn response_class(number: u64) {
    assert_eq!(
        library::response_class(number),
        boundary::response_class(number),
        "response_class {number} differs (library, judge)"
    );
}

/// A name's number on both sides; the table's own bytes are compared too. Returns them.
pub fn name_number(table: &[u8], name: &[u8], folding: bool) -> (Told, Vec<u8>) {
    let (mut ours, mut theirs) = (table.to_vec(), table.to_vec());
    let got = told(library::name_number(&mut ours, name, folding));
    let due = boundary::name_number(&mut theirs, name, folding);
    if got != due || ours != theirs {
        panic!(
            "name_number differs\ntable {}\nname {}, folding {folding}\nlibrary {got:?}\njudge   {due:?}",
            hex(table),
            hex(name)
        );
    }
    (due, theirs)
}

/// A number's name on both sides.
pub fn name_at(
    buffers: &mut Buffers,
    table: &[u8],
    number: u16,
    folding: bool,
    length: usize,
) -> Told {
    buffers.fill([length, 0, 0]);
    let due = boundary::name_at(table, number, folding, &mut buffers.theirs[0]);
    let got = told(library::name_at(
        table,
        number,
        folding,
        &mut buffers.ours[0],
    ));
    if got != due || buffers.ours != buffers.theirs {
        panic!(
            "name_at differs\ntable {}\nnumber {number}, folding {folding}, out {length}\nlibrary {got:?}\njudge   {due:?}",
            hex(table)
        );
    }
    due
}
