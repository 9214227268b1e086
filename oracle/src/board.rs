// SPDX-License-Identifier: Apache-2.0
//! 02, C-11: the board of control units. Beside a state it tells for each ECU how many active locks
//! cover it (one byte), and the lowest id among them; zeros if none.

use crate::{
    model::{Active, State},
    original::Original,
};

/// Bytes of an entry: the count, the id.
pub const ENTRY: usize = 17;
/// Bytes of a board: an entry for each ECU, in order.
pub const SIZE: usize = 256 * ENTRY;

/// The board of a state's active locks, by the original's own map and sets.
#[must_use]
pub fn board(state: &State) -> Vec<u8> {
    written(&Original::new(&State {
        active: state.active.clone(),
        ..State::default()
    }))
}

/// The board of the original's active locks.
#[must_use]
pub(crate) fn written(original: &Original) -> Vec<u8> {
    let mut board = Vec::with_capacity(SIZE);
    for (locks, lowest) in original.on_ecus() {
        board.push(locks);
        board.extend(lowest.unwrap_or_default().0);
    }
    board
}

/// The ECUs whose entries differ between two boards.
fn changed<'a>(before: &'a [u8], after: &'a [u8]) -> impl Iterator<Item = u8> + 'a {
    let entries = before.chunks_exact(ENTRY).zip(after.chunks_exact(ENTRY));
    (0..=255)
        .zip(entries)
        .filter(|(_, (before, after))| before != after)
        .map(|(ecu, _)| ecu)
}

/// The locks that came or went between two states. A lock is known by its id: one that was renewed
/// or adopted has neither come nor gone.
#[must_use]
pub fn moved(before: &State, after: &State) -> Vec<Active> {
    let only_in = |one: &State, other: &State| -> Vec<Active> {
        let alone = |a: &&Active| other.active_at(a.lock.id).is_none();
        one.active.iter().filter(alone).copied().collect()
    };
    [only_in(before, after), only_in(after, before)].concat()
}

/// How many entries changed between two boards.
///
/// # Panics
///
/// Where one changed that none of these locks covers.
#[must_use]
pub fn changed_by(moved: &[Active], before: &[u8], after: &[u8]) -> u64 {
    let mut entries = 0;
    for ecu in changed(before, after) {
        let touched = moved.iter().any(|a| a.lock.coverage.covers(ecu));
        assert!(touched, "the entry of ECU {ecu} changed by {moved:?}");
        entries += 1;
    }
    entries
}
