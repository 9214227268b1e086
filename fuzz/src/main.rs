// SPDX-License-Identifier: Apache-2.0
//! A libFuzzer target over the boundary: any bytes as image, board, feed, record, operation and name
//! table. Every answer, and every byte of every buffer, is held to the judge's. The library is handed slices
//! that end where a page without access begins, so that a read or write past them is a crash.
//! Coverage comes from the judge, since the proved archive carries none.
#![no_main]
#![allow(unsafe_code)]

use std::{ffi::c_void, ptr};

use cablegorse::library;
use differential::{
    pair::{applied, followed, told},
    writer,
};
use oracle::{asked::Asked, board, boundary};

unsafe extern "C" {
    fn mmap(
        at: *mut c_void,
        length: usize,
        access: i32,
        flags: i32,
        file: i32,
        from: i64,
    ) -> *mut c_void;
    fn mprotect(at: *mut c_void, length: usize, access: i32) -> i32;
}

const PAGE: usize = 4096;
const ROOM: usize = 8 * PAGE;

/// Pages with one without access behind them.
struct Fence(*mut u8);

// SAFETY: used by libFuzzer's one thread.
unsafe impl Send for Fence {}
// SAFETY: as above.
unsafe impl Sync for Fence {}

impl Fence {
    fn new() -> Self {
        // SAFETY: a fresh private mapping (read and write, anonymous), its last page closed.
        unsafe {
            let at = mmap(ptr::null_mut(), ROOM + PAGE, 3, 0x22, -1, 0);
            assert!(at as isize != -1, "no memory");
            assert_eq!(mprotect(at.byte_add(ROOM), PAGE, 0), 0);
            Self(at.cast())
        }
    }

    /// A slice of this length that ends at the fence, with these bytes or filled with one.
    #[allow(clippy::mut_from_ref)]
    fn slice(&self, length: usize, fill: u8) -> &mut [u8] {
        assert!(length <= ROOM);
        // SAFETY: inside the mapping; each fence is lent once in an input.
        let slice = unsafe { std::slice::from_raw_parts_mut(self.0.add(ROOM - length), length) };
        slice.fill(fill);
        slice
    }

    fn holding(&self, bytes: &[u8]) -> &mut [u8] {
        let slice = self.slice(bytes.len(), 0);
        slice.copy_from_slice(bytes);
        slice
    }

    fn words(&self, words: &[u64]) -> &[u64] {
        let bytes: Vec<u8> = words.iter().flat_map(|word| word.to_ne_bytes()).collect();
        let slice = self.holding(&bytes);
        // SAFETY: so many words, which end at a page's end and so are aligned.
        unsafe { std::slice::from_raw_parts(slice.as_ptr().cast(), words.len()) }
    }
}

static FENCES: std::sync::LazyLock<[Fence; 6]> =
    std::sync::LazyLock::new(|| std::array::from_fn(|_| Fence::new()));

/// How long an output buffer is: mostly enough.
fn length(choice: u8, enough: usize) -> usize {
    match choice % 8 {
        0 => 0,
        1 => usize::from(choice) * 3 % enough,
        _ => enough,
    }
}

/// Input: function, choice of lengths, a place or question, image length (2), image, the rest.
///
/// # Safety
///
/// As libFuzzer calls it: `size` bytes at `data`.
#[unsafe(no_mangle)]
pub unsafe extern "C" fn LLVMFuzzerTestOneInput(data: *const u8, size: usize) -> i32 {
    if size == 0 {
        return 0;
    }
    // SAFETY: libFuzzer lends these bytes.
    let data = unsafe { std::slice::from_raw_parts(data, size) };
    let [function, choice, extra, low, high, rest @ ..] = data else {
        return 0;
    };
    let cut = usize::from(u16::from_le_bytes([*low, *high])).min(rest.len());
    let (first, second) = rest.split_at(cut);
    if first.len() > ROOM || second.len() > ROOM {
        return 0;
    }
    match function % 11 {
        0 | 1 => apply(first, second, usize::from(*extra), *choice),
        2 => read(first, second, u32::from(*extra), *choice),
        3 => delete_defunct(first, second, *choice),
        4 => test(first, u64::from(*extra)),
        5 => names(first, second, *extra, *choice),
        6 => follow(first, second, *choice),
        7 => apply_board(first, second, usize::from(*extra), *choice),
        8 => delete_defunct_board(first, second, *choice),
        9 => write_record(second, u32::from(*extra), *choice),
        _ => perform(first, second, *choice),
    }
    0
}

/// Lengths of next, removed and expired.
fn lengths(choice: u8) -> [usize; 3] {
    [
        length(choice, 19_156),
        length(choice / 3, 5_824),
        length(choice / 7, 2_048),
    ]
}

fn apply(image: &[u8], feed: &[u8], at: usize, choice: u8) {
    let lengths = lengths(choice);
    let [i, f, n, r, e, _] = &*FENCES;
    let (next, removed, expired) = (
        n.slice(lengths[0], 0xa5),
        r.slice(lengths[1], 0xa5),
        e.slice(lengths[2], 0xa5),
    );
    let got = applied(library::apply(
        i.holding(image),
        f.holding(feed),
        at,
        next,
        removed,
        expired,
    ));
    let mut theirs = lengths.map(|length| vec![0xa5; length]);
    let [a, b, c] = &mut theirs;
    let due = boundary::apply(image, feed, at, a, b, c);
    assert_eq!(got, due, "apply");
    assert!(
        theirs == [next.to_vec(), removed.to_vec(), expired.to_vec()],
        "apply's buffers"
    );
    if got.part == 2 {
        // What it wrote is an image, and expects the next number.
        let image = &next[..got.written as usize];
        let tested = library::test(image);
        assert_eq!(tested.number, 0, "an image it wrote itself");
        assert_eq!(tested.values[1] as u32, got.sequence.wrapping_add(1));
    }
}

/// The board to lend and what is left of the input. It is the image's own, or zeros where that is
/// none: nobody would hit one by chance. The first byte says how many bytes of it are changed (each
/// by a place, 2 bytes, and the bits) and whether its size is another.
fn lent<'a>(image: &[u8], input: &'a [u8]) -> (Vec<u8>, &'a [u8]) {
    let mut board = vec![0; board::SIZE];
    let _ = boundary::board(image, &mut board);
    let Some((how, mut rest)) = input.split_first() else {
        return (board, input);
    };
    for _ in 0..how % 4 {
        let [low, high, bits, more @ ..] = rest else {
            break;
        };
        let at = usize::from(u16::from_le_bytes([*low, *high])) % board.len();
        board[at] ^= bits;
        rest = more;
    }
    match how / 4 % 16 {
        0 => board.truncate(usize::from(*how) * 17),
        1 => board.truncate(board::SIZE - 1),
        2 => board.push(0),
        _ => {}
    }
    (board, rest)
}

fn apply_board(image: &[u8], input: &[u8], at: usize, choice: u8) {
    let (lent, feed) = lent(image, input);
    let lengths = lengths(choice);
    let [i, f, n, r, e, b] = &*FENCES;
    let (next, removed, expired) = (
        n.slice(lengths[0], 0xa5),
        r.slice(lengths[1], 0xa5),
        e.slice(lengths[2], 0xa5),
    );
    let ours = b.holding(&lent);
    let got = applied(library::apply_board(
        i.holding(image),
        ours,
        f.holding(feed),
        at,
        next,
        removed,
        expired,
    ));
    let mut theirs = lengths.map(|length| vec![0xa5; length]);
    let [a, b, c] = &mut theirs;
    let mut kept = lent;
    let due = boundary::apply_board(image, &mut kept, feed, at, a, b, c);
    assert_eq!(got, due, "apply_board");
    assert!(
        theirs == [next.to_vec(), removed.to_vec(), expired.to_vec()],
        "apply_board's buffers"
    );
    assert!(kept == ours, "apply_board's board");
    if got.part == 2 {
        // What it left is the board of what it wrote.
        let mut fresh = vec![0; board::SIZE];
        let made = library::board(&next[..got.written as usize], &mut fresh);
        assert_eq!(made.number, 0, "an image it wrote itself");
        assert!(fresh == ours, "the board of the next image");
    }
}

/// Takes a number of so many bytes off the front, little-endian; what is missing is zero.
fn number(rest: &mut &[u8], bytes: usize) -> u64 {
    let (field, after) = rest.split_at(bytes.min(rest.len()));
    *rest = after;
    field
        .iter()
        .rev()
        .fold(0, |sum, byte| sum << 8 | u64::from(*byte))
}

/// An operation's numbers in the library's order, and the words of a list from all that follows.
fn asked(mut rest: &[u8]) -> (Asked, Vec<u64>) {
    let rest = &mut rest;
    let asked = Asked {
        id: [(); 2].map(|()| number(rest, 8)),
        parent: [(); 2].map(|()| number(rest, 8)),
        set: [(); 4].map(|()| number(rest, 8)),
        expires: number(rest, 8),
        now: number(rest, 8),
        principal: number(rest, 4) as u32,
        metadata: number(rest, 4) as u32,
        breaker: number(rest, 4) as u32,
        kind: number(rest, 2) as u16,
        subject: number(rest, 2) as u16,
        scope: number(rest, 1) as u8,
        number: number(rest, 1) as u8,
        exclusive: number(rest, 1) as u8,
        coverage: number(rest, 1) as u8,
        child: number(rest, 1) as u8,
        given: number(rest, 1) as u8,
    };
    let words = rest.len().div_ceil(8);
    let list = (0..words).map(|_| number(rest, 8)).collect();
    (asked, list)
}

fn write_record(input: &[u8], sequence: u32, choice: u8) {
    let (asked, list) = asked(input);
    // Most records are shorter than the longest.
    let length = length(choice, [1_133, 1_200, 120][usize::from(choice / 8 % 3)]);
    let [l, o, ..] = &*FENCES;
    let (words, out) = (l.words(&list), o.slice(length, 0xa5));
    let got = library::write_record(sequence, &writer::asked(&asked), words, out);
    let mut theirs = vec![0xa5; length];
    let due = boundary::write_record(sequence, &asked, &list, &mut theirs);
    assert_eq!(told(got), due, "write_record");
    assert!(theirs == out, "write_record's buffer");
}

fn perform(image: &[u8], input: &[u8], choice: u8) {
    let (asked, list) = asked(input);
    let [a, b, c] = lengths(choice);
    let lengths = [a, b, c, length(choice / 11, 1_133)];
    let [i, l, n, r, e, s] = &*FENCES;
    let (next, removed, expired, sent) = (
        n.slice(lengths[0], 0xa5),
        r.slice(lengths[1], 0xa5),
        e.slice(lengths[2], 0xa5),
        s.slice(lengths[3], 0xa5),
    );
    let (image, words) = (i.holding(image), l.words(&list));
    let numbers = writer::asked(&asked);
    let got = library::perform(image, &numbers, words, next, removed, expired, sent);
    let got = applied(got);
    let mut theirs = lengths.map(|length| vec![0xa5; length]);
    let outputs = theirs.each_mut().map(Vec::as_mut_slice);
    let due = boundary::perform(image, &asked, &list, outputs);
    assert_eq!(got, due, "perform");
    let ours = [&*next, &*removed, &*expired, &*sent].map(<[u8]>::to_vec);
    assert!(theirs == ours, "perform's buffers");
    if got.part == 2 {
        // A spare that gets the record ends with the same image.
        let record = &sent[..got.place as usize];
        let mut rooms = [19_156, 5_824, 2_048].map(|length| vec![0; length]);
        let [a, b, c] = &mut rooms;
        let again = applied(library::apply(image, record, 0, a, b, c));
        assert_eq!(again, got, "its own record");
        assert!(a[..got.written as usize] == next[..got.written as usize]);
    }
}

fn follow(image: &[u8], chunk: &[u8], choice: u8) {
    let length = length(choice, 19_156);
    let [i, f, n, ..] = &*FENCES;
    let next = n.slice(length, 0xa5);
    let got = followed(library::follow(i.holding(image), f.holding(chunk), next));
    let mut theirs = vec![0xa5; length];
    let due = boundary::follow(image, chunk, &mut theirs);
    assert_eq!(got, due, "follow");
    assert!(theirs == next, "follow's buffer");
    if matches!(got.part, 1 | 2) {
        // What it wrote is an image, and expects what it says.
        let tested = library::test(&next[..got.written as usize]);
        assert_eq!(tested.number, 0, "an image it wrote itself");
        assert_eq!(tested.values[1] as u32, got.expected);
    }
}

fn read(image: &[u8], rest: &[u8], question: u32, choice: u8) {
    let (numbers, record) = rest.split_at(rest.len().min(16));
    let mut halves = [0; 16];
    halves[..numbers.len()].copy_from_slice(numbers);
    let [x, y] = [&halves[..8], &halves[8..]]
        .map(|half| u64::from_le_bytes(half.try_into().expect("8 bytes")));
    let length = length(choice, 1_024);
    let [i, f, o, ..] = &*FENCES;
    let out = o.slice(length, 0xa5);
    let got = told(library::read(
        i.holding(image),
        question,
        x,
        y,
        f.holding(record),
        out,
    ));
    let mut theirs = vec![0xa5; length];
    let due = boundary::read(image, question, x, y, record, &mut theirs);
    assert_eq!(got, due, "read {question}");
    assert!(theirs == out, "read's buffer");
}

/// Id, scope and subject of a deletion; what is missing is zero.
fn deletion(rest: &[u8]) -> ([u64; 2], (u8, u8), u16) {
    let mut bytes = [0; 20];
    let count = rest.len().min(20);
    bytes[..count].copy_from_slice(&rest[..count]);
    let [id @ .., kind, number, s0, s1] = bytes;
    let id = u128::from_be_bytes(id);
    let id = [(id >> 64) as u64, id as u64];
    (id, (kind, number), u16::from_le_bytes([s0, s1]))
}

/// The board is only read; one of the image is made beside it.
fn delete_defunct_board(image: &[u8], input: &[u8], choice: u8) {
    let (lent, rest) = lent(image, input);
    let (id, (kind, number), subject) = deletion(rest);
    let length = length(choice, 19_156);
    let [i, n, o, b, ..] = &*FENCES;
    let (image, next, board) = (i.holding(image), n.slice(length, 0xa5), b.holding(&lent));
    let scope = (kind, number);
    let got = library::delete_defunct_board(image, board, id, scope, subject, next);
    let mut theirs = vec![0xa5; length];
    let due = boundary::delete_defunct_board(image, &lent, id, kind, number, subject, &mut theirs);
    assert_eq!(applied(got), due, "delete_defunct_board");
    assert!(theirs == next, "delete_defunct_board's buffer");
    assert!(lent == board, "delete_defunct_board's board");

    let room = self::length(choice / 3, board::SIZE + usize::from(choice % 2));
    let out = o.slice(room, 0xa5);
    let mut theirs = vec![0xa5; room];
    let due = boundary::board(image, &mut theirs);
    assert_eq!(told(library::board(image, out)), due, "board");
    assert!(theirs == out, "board's buffer");
}

fn delete_defunct(image: &[u8], rest: &[u8], choice: u8) {
    let (id, (kind, number), subject) = deletion(rest);
    let length = length(choice, 19_156);
    let [i, n, ..] = &*FENCES;
    let next = n.slice(length, 0xa5);
    let got = applied(library::delete_defunct(
        i.holding(image),
        id,
        (kind, number),
        subject,
        next,
    ));
    let mut theirs = vec![0xa5; length];
    let due = boundary::delete_defunct(image, id, kind, number, subject, &mut theirs);
    assert_eq!(got, due, "delete_defunct");
    assert!(theirs == next, "delete_defunct's buffer");
}

fn test(image: &[u8], generation: u64) {
    let image = FENCES[0].holding(image);
    assert_eq!(told(library::test(image)), boundary::test(image), "test");
    assert_eq!(
        told(library::prepare_runtime_update(image, generation)),
        boundary::prepare_runtime_update(image, generation),
        "prepare_runtime_update"
    );
}

/// The first part is a run of names (length byte, bytes) put into a table as they are, right or
/// not, the second a name; `extra` may damage the table.
fn names(first: &[u8], name: &[u8], extra: u8, choice: u8) {
    let folding = choice & 1 == 1;
    let mut table = vec![0; 16_642];
    let mut rest = first;
    let mut count: u16 = 0;
    while let [length, more @ ..] = rest
        && count < 256
    {
        let length = usize::from(*length % 66).min(more.len());
        let start = 2 + 65 * usize::from(count);
        table[start] = length as u8;
        let kept = length.min(64);
        table[start + 1..start + 1 + kept].copy_from_slice(&more[..kept]);
        rest = &more[length..];
        count += 1;
    }
    table[..2].copy_from_slice(&count.to_le_bytes());
    if extra > 127 {
        let at = usize::from(extra) * 97 % table.len();
        table[at] ^= choice;
    }
    let [t, n, o, ..] = &*FENCES;
    let ours = t.holding(&table);
    let out = o.slice(usize::from(choice % 80), 0xa5);
    let got = told(library::name_at(ours, extra.into(), folding, out));
    let mut theirs = vec![0xa5; out.len()];
    let due = boundary::name_at(&table, extra.into(), folding, &mut theirs);
    assert_eq!(got, due, "name_at");
    assert!(theirs == out, "name_at's buffer");
    let got = told(library::name_number(ours, n.holding(name), folding));
    let due = boundary::name_number(&mut table, name, folding);
    assert_eq!(got, due, "name_number");
    assert!(ours == table, "name_number's table");
}
