// SPDX-License-Identifier: Apache-2.0
//! 02, C-11: the functions with a board of control units, as [`crate::pair`] has those without. A
//! board that isn't the image's own is 28, and every byte of every buffer stays.

use cablegorse::library;
use oracle::{
    board,
    boundary::{self, Applied, Full, Told},
    generate::Rng,
    model::Operation,
};

use crate::pair::{Buffers, Subject, applied, deletion, hex, told};

/// A board that isn't this one: a byte is changed, or its size.
pub fn another(rng: &mut Rng, own: &[u8]) -> Vec<u8> {
    let mut board = own.to_vec();
    match rng.below(8) {
        0 => board.truncate(rng.below(own.len())),
        1 => board.resize(own.len() + 1 + rng.below(40), 0),
        2 => board.truncate(own.len() - 1),
        kind => {
            // The last entry more often.
            let from = if kind == 3 {
                own.len() - board::ENTRY
            } else {
                0
            };
            let at = from + rng.below(own.len() - from);
            board[at] = own[at].wrapping_add(1 + rng.below(255) as u8);
        }
    }
    board
}

/// The board of an image on both sides. `length` is the output's.
pub fn board(buffers: &mut Buffers, subject: &Subject<'_>, length: usize) -> Told {
    buffers.fill([length, 0, 0]);
    let due = boundary::put_whole(&subject.board, &mut buffers.theirs[0]);
    same_board(buffers, subject.image, &due);
    due
}

/// The same of any bytes, judged from nothing.
pub fn board_bytes(buffers: &mut Buffers, image: &[u8], length: usize) -> Told {
    buffers.fill([length, 0, 0]);
    let due = boundary::board(image, &mut buffers.theirs[0]);
    same_board(buffers, image, &due);
    due
}

fn same_board(buffers: &mut Buffers, image: &[u8], due: &Told) {
    let got = told(library::board(image, &mut buffers.ours[0]));
    if got != *due || buffers.ours != buffers.theirs {
        panic!(
            "board differs\nimage {}\nlibrary {got:?} {}\njudge   {due:?} {}",
            hex(image),
            hex(&buffers.ours[0]),
            hex(&buffers.theirs[0]),
        );
    }
}

/// A record with a board lent, held to a step of the judge's that is done. Returns the answer and
/// how many entries changed: only those of ECUs that a lock which came or went covers.
pub fn apply(
    buffers: &mut Buffers,
    subject: &Subject<'_>,
    lent: &[u8],
    (feed, at): (&[u8], usize),
    full: &Full,
    lengths: [usize; 3],
) -> (Applied, u64) {
    buffers.fill(lengths);
    let mut theirs = lent.to_vec();
    let mut moved = Vec::new();
    let due = if lent == subject.board {
        let [next, removed, expired, _] = &mut buffers.theirs;
        let due = full.put(at, next, removed, expired);
        if let (2, Some(after)) = (due.part, &full.after) {
            moved = board::moved(subject.judge.state(), after);
            theirs = board::board(after);
        }
        due
    } else {
        boundary::mismatch(at)
    };
    let ours = same_apply(buffers, subject.image, lent, (feed, at), (&due, &theirs));
    (due, board::changed_by(&moved, lent, &ours))
}

/// Any bytes as image, board and feed, judged from nothing.
pub fn apply_bytes(
    buffers: &mut Buffers,
    image: &[u8],
    lent: &[u8],
    (feed, at): (&[u8], usize),
    lengths: [usize; 3],
) -> Applied {
    buffers.fill(lengths);
    let mut theirs = lent.to_vec();
    let [next, removed, expired, _] = &mut buffers.theirs;
    let due = boundary::apply_board(image, &mut theirs, feed, at, next, removed, expired);
    same_apply(buffers, image, lent, (feed, at), (&due, &theirs));
    due
}

/// The library's side of what the judge has done, and the board it leaves.
fn same_apply(
    buffers: &mut Buffers,
    image: &[u8],
    lent: &[u8],
    (feed, at): (&[u8], usize),
    (due, theirs): (&Applied, &[u8]),
) -> Vec<u8> {
    let mut ours = lent.to_vec();
    let [next, removed, expired, _] = &mut buffers.ours;
    let got = applied(library::apply_board(
        image, &mut ours, feed, at, next, removed, expired,
    ));
    if got != *due || ours != theirs || buffers.ours != buffers.theirs {
        panic!(
            "apply_board differs\nimage {}\nboard {}\nfeed {} at {at}\nlibrary {got:?}\njudge   {due:?}\nbuffers agree: {:?}, the board: {}\nboard left {}",
            hex(image),
            hex(lent),
            hex(feed),
            [0, 1, 2].map(|i| buffers.ours[i] == buffers.theirs[i]),
            ours == theirs,
            hex(&ours),
        );
    }
    ours
}

/// `delete_defunct` with a board lent; it is only read.
pub fn delete_defunct(
    buffers: &mut Buffers,
    subject: &Subject<'_>,
    lent: &[u8],
    operation: &Operation,
    length: usize,
) -> Applied {
    let (id, scope, owner) = deletion(operation);
    buffers.fill([length, 0, 0]);
    let due = if lent == subject.board {
        let (judge, expected) = (&*subject.judge, subject.expected);
        boundary::dropped(judge, expected, operation, &mut buffers.theirs[0])
    } else {
        boundary::mismatch(0)
    };
    same_deletion(buffers, (subject.image, lent), id, scope, owner, &due);
    due
}

/// The same with any numbers and bytes, judged from nothing.
pub fn delete_defunct_bytes(
    buffers: &mut Buffers,
    (image, lent): (&[u8], &[u8]),
    id: [u64; 2],
    scope: (u8, u8),
    subject: u16,
    length: usize,
) -> Applied {
    buffers.fill([length, 0, 0]);
    let next = &mut buffers.theirs[0];
    let due = boundary::delete_defunct_board(image, lent, id, scope.0, scope.1, subject, next);
    same_deletion(buffers, (image, lent), id, scope, subject, &due);
    due
}

fn same_deletion(
    buffers: &mut Buffers,
    (image, lent): (&[u8], &[u8]),
    id: [u64; 2],
    scope: (u8, u8),
    subject: u16,
    due: &Applied,
) {
    let next = &mut buffers.ours[0];
    let got = library::delete_defunct_board(image, lent, id, scope, subject, next);
    let got = applied(got);
    if got != *due || buffers.ours != buffers.theirs {
        panic!(
            "delete_defunct_board differs\nimage {}\nboard {}\n{id:?} {scope:?} {subject}\nlibrary {got:?}\njudge   {due:?}",
            hex(image),
            hex(lent),
        );
    }
}
