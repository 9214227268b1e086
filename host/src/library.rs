// SPDX-License-Identifier: Apache-2.0
//! The static library's functions on slices: the one module with `unsafe`.
//!
//! Each function here is safe and total: any bytes and any numbers get an answer. What is
//! written is said by [`Applied::part`] and [`Followed::part`], not by the number beside it: a
//! record whose operation was refused is applied all the same ([`Part::Applied`]), and its next
//! image must be kept. A success keeps the bytes past its output. [`crate::Replica`] and [`crate::NameTable`] are built
//! on these; a host that keeps its own buffers may call them as they are.
#![allow(unsafe_code)]

/// Bytes of the largest image: HEAD, 64 ACTIVE and 128 DEFUNCT records.
pub const IMAGE_LIMIT: usize = 20 + 64 * 91 + 128 * 104;
/// Bytes of the most removed locks, 64 ACTIVE records.
pub const REMOVED_LIMIT: usize = 64 * 91;
/// Bytes of the most expired ids, 128 of 16 bytes.
pub const EXPIRED_LIMIT: usize = 128 * 16;
/// Bytes of the largest feed record, a replacement of 64 locks.
pub const RECORD_LIMIT: usize = 2 + 107 + 64 * 16;
/// Bytes of a board's entry: the count, and the id.
pub const ENTRY_BYTES: usize = 1 + 16;
/// Bytes of a board of control units, an entry for each ECU ([`crate::OnEcu`] reads one).
pub const BOARD_BYTES: usize = 256 * ENTRY_BYTES;

/// The reads by their numbers, for [`read`]. What each takes and answers: include/cablegorse.h.
pub mod question {
    /// How many changes went through.
    pub const REVISION: u32 = 1;
    /// The lock held on a scope.
    pub const ACTIVE_FOR_SCOPE: u32 = 2;
    /// The held lock with an id.
    pub const ACTIVE_BY_ID: u32 = 3;
    /// The defunct lock with an id.
    pub const DEFUNCT_BY_ID: u32 = 4;
    /// The held lock at a place.
    pub const ACTIVE_AT: u32 = 5;
    /// The defunct lock at a place.
    pub const DEFUNCT_AT: u32 = 6;
    /// The ECU locks that a functional group's lock takes along.
    pub const COVERED_NARROW_LOCKS: u32 = 7;
    /// A functional group's lock of a subject that covers an ECU.
    pub const COVERING_FUNCTIONAL_GROUP: u32 = 8;
    /// The tester-present signal that a lock calls for.
    pub const TESTER_PRESENT_FOR: u32 = 9;
    /// Whether a held lock still calls for a signal.
    pub const TESTER_PRESENT_NEEDED: u32 = 10;
    /// A defunct lock that a new lock would touch and not supersede.
    pub const UNCOVERED_DEFUNCT: u32 = 11;
    /// Who holds what a defunct lock was replaced by.
    pub const CURRENT_HOLDER: u32 = 12;
    /// The subject of the vehicle lock.
    pub const VEHICLE_LOCK_OWNER_SUB: u32 = 13;
    /// Whether a lock that isn't a vehicle lock is held.
    pub const HAS_NON_VEHICLE_LOCKS: u32 = 14;
}

/// How far a change came, and so what was written.
#[derive(Clone, Copy, Debug, PartialEq, Eq, Hash)]
#[non_exhaustive]
pub enum Part {
    /// 0: the image was refused (17 to 20, 12), or the board that was lent isn't its own (28).
    /// Nothing was written.
    ImageRefused = 0,
    /// 1: the record was refused (17 to 19) or is out of turn (15, 16), an argument can't be (19),
    /// or no record can hold what was asked (18, 19, 14, 29). Nothing was written.
    RecordRefused = 1,
    /// 2: applied. The number is the operation's own answer, a refusal perhaps; the next image was
    /// written and is the state from now on.
    Applied = 2,
    /// 3: an output is too short (21). Nothing was written.
    ShortOutput = 3,
}

impl Part {
    /// The boundary's number.
    #[must_use]
    pub const fn number(self) -> u32 {
        self as u32
    }

    /// The part with this number.
    #[must_use]
    pub const fn from_number(number: u32) -> Option<Self> {
        Some(match number {
            0 => Self::ImageRefused,
            1 => Self::RecordRefused,
            2 => Self::Applied,
            3 => Self::ShortOutput,
            _ => return None,
        })
    }
}

/// How far a run over a chunk came, and so what was written. Its numbers aren't [`Part`]'s.
#[derive(Clone, Copy, Debug, PartialEq, Eq, Hash)]
#[non_exhaustive]
pub enum ChunkPart {
    /// 0: the image was refused (17 to 20, 12). Nothing was written.
    ImageRefused = 0,
    /// 1: no record can be read (17 to 19) where the run stopped. The image after the records
    /// before that was written and is the state from now on.
    Stopped = 1,
    /// 2: every record was read. The next image was written and is the state from now on.
    Ended = 2,
    /// 3: the output is too short (21). Nothing was written.
    ShortOutput = 3,
}

impl ChunkPart {
    /// The boundary's number.
    #[must_use]
    pub const fn number(self) -> u32 {
        self as u32
    }

    /// The part with this number.
    #[must_use]
    pub const fn from_number(number: u32) -> Option<Self> {
        Some(match number {
            0 => Self::ImageRefused,
            1 => Self::Stopped,
            2 => Self::Ended,
            3 => Self::ShortOutput,
            _ => return None,
        })
    }
}

/// An answer of one number and up to five values.
#[repr(C)]
#[derive(Clone, Copy, Debug, PartialEq, Eq, Default)]
pub struct Told {
    /// Document 01's number; 0 is no refusal.
    pub number: u32,
    /// How many of the values apply.
    pub count: u32,
    /// The values beside the number; those that don't apply are 0.
    pub values: [u64; 5],
}

/// An operation as numbers, its list of ids aside. What its kind doesn't take is not read, and
/// what doesn't apply (a whole vehicle's set, the parent of a lock without one) is taken as zero.
/// [`crate::Operation::asked`] makes one.
#[repr(C)]
#[derive(Clone, Copy, Debug, Default, PartialEq, Eq)]
pub struct Asked {
    /// The id's first half; in 16, 17 and 21 of the lock to take.
    pub hi: u64,
    /// The id's second half.
    pub lo: u64,
    /// The parent's first half.
    pub parenthi: u64,
    /// The parent's second half.
    pub parentlo: u64,
    /// The set that the lock covers, ECUs 0 to 63: ECU e is bit e % 64 of word e / 64.
    pub w0: u64,
    /// ECUs 64 to 127.
    pub w1: u64,
    /// ECUs 128 to 191.
    pub w2: u64,
    /// ECUs 192 to 255.
    pub w3: u64,
    /// When the lock expires, from now on in 18.
    pub expires: u64,
    /// The host's clock in 18, 20 and 23; in 21 when the locks were broken.
    pub now: u64,
    /// The host's number for the principal.
    pub principal: u32,
    /// The host's number for the metadata.
    pub metadata: u32,
    /// In 21 who broke the locks.
    pub breaker: u32,
    /// The record's kind, 16 to 23.
    pub kind: u16,
    /// Whose the lock is.
    pub subject: u16,
    /// The scope's kind: 0 the vehicle, 1 an ECU, 2 a functional group.
    pub scope: u8,
    /// The scope's number.
    pub number: u8,
    /// 1 where the lock is asked for exclusively, else 0.
    pub exclusive: u8,
    /// 0 where the lock covers the whole vehicle, 1 where it covers the set.
    pub coverage: u8,
    /// 1 where the lock has a parent, else 0.
    pub child: u8,
    /// In 18: 1 where metadata is given, 0 where the lock keeps its own.
    pub given: u8,
}

/// What applying a record, performing an operation, or dropping a defunct lock answers.
#[derive(Clone, Copy, Debug, PartialEq, Eq)]
pub struct Applied {
    /// Document 01's number and its values.
    pub told: Told,
    /// How far it came: what was written, and whose answer the number is.
    pub part: Part,
    /// The record's sequence, 0 where none was read.
    pub sequence: u32,
    /// Where the next record starts; of [`perform`] the record's size.
    pub place: usize,
    /// Bytes of the next image; 0 where none was written.
    pub written: usize,
    /// ACTIVE records of 91 bytes among the removed.
    pub gone: usize,
    /// Ids of 16 bytes among the expired.
    pub lapsed: usize,
}

impl Applied {
    /// # Panics
    ///
    /// Where the part is none that is known: then archive and crate aren't of one version.
    fn from_raw(raw: raw::Applied) -> Self {
        let part = Part::from_number(raw.part).unwrap_or_else(|| other_version(raw.part));
        Self {
            told: raw.told,
            part,
            sequence: raw.sequence,
            place: raw.place as usize,
            written: raw.written as usize,
            gone: raw.gone as usize,
            lapsed: raw.lapsed as usize,
        }
    }
}

/// What following a chunk of a feed answers.
#[derive(Clone, Copy, Debug, PartialEq, Eq)]
pub struct Followed {
    /// Document 01's number of what ended the run, and its values; 0 at the chunk's end.
    pub told: Told,
    /// How far it came: what was written, and what ended it.
    pub part: ChunkPart,
    /// The number that is due next.
    pub expected: u32,
    /// Where the last record that was read ends.
    pub place: usize,
    /// Records that were read.
    pub read: usize,
    /// Those of them that were in turn, refused by their operation or not.
    pub applied: usize,
    /// Bytes of the next image; 0 where none was written.
    pub written: usize,
}

impl Followed {
    /// # Panics
    ///
    /// As [`Applied::from_raw`].
    fn from_raw(raw: raw::Followed) -> Self {
        let part = ChunkPart::from_number(raw.part).unwrap_or_else(|| other_version(raw.part));
        Self {
            told: raw.told,
            part,
            expected: raw.expected,
            place: raw.place as usize,
            read: raw.read as usize,
            applied: raw.applied as usize,
            written: raw.written as usize,
        }
    }
}

fn other_version(part: u32) -> ! {
    panic!("libcablegorse told part {part}: archive and crate aren't of one version");
}

// What crosses the boundary is laid out as C does: two u32, five u64, and so on. In C an array
// in a struct and a struct at the front lie where the single fields would.
const _: () = {
    assert!(size_of::<Told>() == 48 && align_of::<Told>() == 8);
    assert!(size_of::<raw::Applied>() == 88 && align_of::<raw::Applied>() == 8);
    assert!(size_of::<raw::Followed>() == 88 && align_of::<raw::Followed>() == 8);
    assert!(size_of::<Asked>() == 104 && align_of::<Asked>() == 8);
    // Lengths are u64 in the answers; a slice's length fits.
    assert!(size_of::<usize>() == 8);
};

/// The foreign declarations, and nothing else. bin/check-header holds them to the library's
/// source and to include/cablegorse.h.
mod raw {
    use super::{Asked, Told};

    #[repr(C)]
    pub struct Applied {
        pub told: Told,
        pub part: u32,
        pub sequence: u32,
        pub place: u64,
        pub written: u64,
        pub gone: u64,
        pub lapsed: u64,
    }

    #[repr(C)]
    pub struct Followed {
        pub told: Told,
        pub part: u32,
        pub expected: u32,
        pub place: u64,
        pub read: u64,
        pub applied: u64,
        pub written: u64,
    }

    // SAFETY: the archive has these names with these types (include/cablegorse.h, bin/check-header);
    // a slice passes as pointer and length.
    unsafe extern "C" {
        pub fn cablegorse_apply(
            image: *const u8,
            image_len: usize,
            feed: *const u8,
            feed_len: usize,
            at: usize,
            next: *mut u8,
            next_len: usize,
            removed: *mut u8,
            removed_len: usize,
            expired: *mut u8,
            expired_len: usize,
        ) -> Applied;
        pub fn cablegorse_follow(
            image: *const u8,
            image_len: usize,
            chunk: *const u8,
            chunk_len: usize,
            next: *mut u8,
            next_len: usize,
        ) -> Followed;
        pub fn cablegorse_write_record(
            sequence: u32,
            asked: Asked,
            list: *const u64,
            list_len: usize,
            out: *mut u8,
            out_len: usize,
        ) -> Told;
        pub fn cablegorse_perform(
            image: *const u8,
            image_len: usize,
            asked: Asked,
            list: *const u64,
            list_len: usize,
            next: *mut u8,
            next_len: usize,
            removed: *mut u8,
            removed_len: usize,
            expired: *mut u8,
            expired_len: usize,
            sent: *mut u8,
            sent_len: usize,
        ) -> Applied;
        pub fn cablegorse_delete_defunct(
            image: *const u8,
            image_len: usize,
            hi: u64,
            lo: u64,
            kind: u8,
            number: u8,
            subject: u16,
            next: *mut u8,
            next_len: usize,
        ) -> Applied;
        pub fn cablegorse_board(
            image: *const u8,
            image_len: usize,
            out: *mut u8,
            out_len: usize,
        ) -> Told;
        pub fn cablegorse_apply_board(
            image: *const u8,
            image_len: usize,
            board: *mut u8,
            board_len: usize,
            feed: *const u8,
            feed_len: usize,
            at: usize,
            next: *mut u8,
            next_len: usize,
            removed: *mut u8,
            removed_len: usize,
            expired: *mut u8,
            expired_len: usize,
        ) -> Applied;
        pub fn cablegorse_delete_defunct_board(
            image: *const u8,
            image_len: usize,
            board: *const u8,
            board_len: usize,
            hi: u64,
            lo: u64,
            kind: u8,
            number: u8,
            subject: u16,
            next: *mut u8,
            next_len: usize,
        ) -> Applied;
        pub fn cablegorse_prepare_runtime_update(
            image: *const u8,
            image_len: usize,
            generation: u64,
        ) -> Told;
        pub fn cablegorse_test(image: *const u8, image_len: usize) -> Told;
        pub fn cablegorse_read(
            image: *const u8,
            image_len: usize,
            question: u32,
            x: u64,
            y: u64,
            record: *const u8,
            record_len: usize,
            out: *mut u8,
            out_len: usize,
        ) -> Told;
        pub fn cablegorse_name_number(
            table: *mut u8,
            table_len: usize,
            name: *const u8,
            name_len: usize,
            folding: bool,
        ) -> Told;
        pub fn cablegorse_name_at(
            table: *const u8,
            table_len: usize,
            number: u16,
            folding: bool,
            out: *mut u8,
            out_len: usize,
        ) -> Told;
        // SAFETY: numbers in, a number out.
        pub safe fn cablegorse_response_class(number: u64) -> u32;
    }
}

/// Applies the feed's record at a place to an image, and writes the next image, the removed
/// locks (ACTIVE records) and the expired ids.
#[must_use]
pub fn apply(
    image: &[u8],
    feed: &[u8],
    at: usize,
    next: &mut [u8],
    removed: &mut [u8],
    expired: &mut [u8],
) -> Applied {
    // SAFETY: each pair is a live slice's pointer and length. The borrows keep the three
    // buffers apart from each other and from what is read, which the library's proof assumes.
    // The library reads and writes within the lengths, keeps no pointer and never unwinds.
    let raw = unsafe {
        raw::cablegorse_apply(
            image.as_ptr(),
            image.len(),
            feed.as_ptr(),
            feed.len(),
            at,
            next.as_mut_ptr(),
            next.len(),
            removed.as_mut_ptr(),
            removed.len(),
            expired.as_mut_ptr(),
            expired.len(),
        )
    };
    Applied::from_raw(raw)
}

/// Follows a whole chunk of a feed from its first byte on: each record is read, applied where it
/// is the one due and else passed over. Writes the image after the last one that can be read.
#[must_use]
pub fn follow(image: &[u8], chunk: &[u8], next: &mut [u8]) -> Followed {
    // SAFETY: as in `apply`.
    let raw = unsafe {
        raw::cablegorse_follow(
            image.as_ptr(),
            image.len(),
            chunk.as_ptr(),
            chunk.len(),
            next.as_mut_ptr(),
            next.len(),
        )
    };
    Followed::from_raw(raw)
}

/// Writes an operation as the feed record with this sequence number, from the start of `out` on. The
/// list has two words an id, as [`crate::LockId::halves`] gives them, and counts for kinds 17 and 21
/// alone.
///
/// 0 with the record's bytes; else 18 (no such kind), 19 (a number that its field can't have), 14 (an
/// odd number of words), 29 (over 64 ids), 21 with the bytes needed, in this order, and nothing is
/// written. [`RECORD_LIMIT`] bytes always do.
#[must_use]
pub fn write_record(sequence: u32, asked: &Asked, list: &[u64], out: &mut [u8]) -> Told {
    // SAFETY: as in `apply`; the operation goes by value, and the list's length is in words.
    unsafe {
        raw::cablegorse_write_record(
            sequence,
            *asked,
            list.as_ptr(),
            list.len(),
            out.as_mut_ptr(),
            out.len(),
        )
    }
}

/// Performs an operation on an image, as a primary: writes into `sent` the record that carries it to
/// a spare, with the number that the image expects, and into the others what [`apply`] writes of that
/// record. All four are written or none. Arguments as [`write_record`] has them.
///
/// [`Part::RecordRefused`] is its 18, 19, 14 and 29, after the image's own refusals; 21 tells of all
/// four outputs. [`Applied::place`] is the record's size.
#[must_use]
pub fn perform(
    image: &[u8],
    asked: &Asked,
    list: &[u64],
    next: &mut [u8],
    removed: &mut [u8],
    expired: &mut [u8],
    sent: &mut [u8],
) -> Applied {
    // SAFETY: as in `apply` and `write_record`; the record is a fourth buffer.
    let raw = unsafe {
        raw::cablegorse_perform(
            image.as_ptr(),
            image.len(),
            *asked,
            list.as_ptr(),
            list.len(),
            next.as_mut_ptr(),
            next.len(),
            removed.as_mut_ptr(),
            removed.len(),
            expired.as_mut_ptr(),
            expired.len(),
            sent.as_mut_ptr(),
            sent.len(),
        )
    };
    Applied::from_raw(raw)
}

/// 001's `delete_defunct` on an image; the id as two big-endian halves, the scope as kind and
/// number. The next image is written only where the state changed.
#[must_use]
pub fn delete_defunct(
    image: &[u8],
    id: [u64; 2],
    scope: (u8, u8),
    subject: u16,
    next: &mut [u8],
) -> Applied {
    // SAFETY: as in `apply`.
    let raw = unsafe {
        raw::cablegorse_delete_defunct(
            image.as_ptr(),
            image.len(),
            id[0],
            id[1],
            scope.0,
            scope.1,
            subject,
            next.as_mut_ptr(),
            next.len(),
        )
    };
    Applied::from_raw(raw)
}

/// The board of control units of an image, in the first [`BOARD_BYTES`] bytes of `out`: 0 or 21
/// with that size, or the image's refusal.
#[must_use]
pub fn board(image: &[u8], out: &mut [u8]) -> Told {
    // SAFETY: as in `apply`.
    unsafe { raw::cablegorse_board(image.as_ptr(), image.len(), out.as_mut_ptr(), out.len()) }
}

/// [`apply`] with the image's board, which becomes the next image's where the record was applied,
/// and is left where it wasn't. 28 and [`Part::ImageRefused`] where it isn't the image's own, or
/// has another size: nothing was written then, the board neither.
#[must_use]
pub fn apply_board(
    image: &[u8],
    board: &mut [u8],
    feed: &[u8],
    at: usize,
    next: &mut [u8],
    removed: &mut [u8],
    expired: &mut [u8],
) -> Applied {
    // SAFETY: as in `apply`; the board is a fourth buffer.
    let raw = unsafe {
        raw::cablegorse_apply_board(
            image.as_ptr(),
            image.len(),
            board.as_mut_ptr(),
            board.len(),
            feed.as_ptr(),
            feed.len(),
            at,
            next.as_mut_ptr(),
            next.len(),
            removed.as_mut_ptr(),
            removed.len(),
            expired.as_mut_ptr(),
            expired.len(),
        )
    };
    Applied::from_raw(raw)
}

/// [`delete_defunct`] with the image's board, which is the next image's too: no active lock comes
/// or goes. 28 as in [`apply_board`].
#[must_use]
pub fn delete_defunct_board(
    image: &[u8],
    board: &[u8],
    id: [u64; 2],
    scope: (u8, u8),
    subject: u16,
    next: &mut [u8],
) -> Applied {
    // SAFETY: as in `apply`.
    let raw = unsafe {
        raw::cablegorse_delete_defunct_board(
            image.as_ptr(),
            image.len(),
            board.as_ptr(),
            board.len(),
            id[0],
            id[1],
            scope.0,
            scope.1,
            subject,
            next.as_mut_ptr(),
            next.len(),
        )
    };
    Applied::from_raw(raw)
}

/// 001's `prepare_runtime_update`: 0 and the generation from now on, 24, 25, or the image's
/// refusal.
#[must_use]
pub fn prepare_runtime_update(image: &[u8], generation: u64) -> Told {
    // SAFETY: a live slice's pointer and length; the library only reads.
    unsafe { raw::cablegorse_prepare_runtime_update(image.as_ptr(), image.len(), generation) }
}

/// Whether these bytes are an image of a sound state: 0 with revision, expected number and both
/// counts, or the refusal.
#[must_use]
pub fn test(image: &[u8]) -> Told {
    // SAFETY: a live slice's pointer and length; the library only reads.
    unsafe { raw::cablegorse_test(image.as_ptr(), image.len()) }
}

/// One of the reads, by its number in [`question`].
#[must_use]
pub fn read(image: &[u8], question: u32, x: u64, y: u64, record: &[u8], out: &mut [u8]) -> Told {
    // SAFETY: as in `apply`.
    unsafe {
        raw::cablegorse_read(
            image.as_ptr(),
            image.len(),
            question,
            x,
            y,
            record.as_ptr(),
            record.len(),
            out.as_mut_ptr(),
            out.len(),
        )
    }
}

/// A name's number in a table of 16,642 bytes; a new name is entered, and the count in the table's
/// first two bytes rises by 1. `folding`: whether the table keeps names in small letters, as ECU
/// and group tables do. It belongs to the table: [`crate::NameTable`] says what a wrong one does.
#[must_use]
pub fn name_number(table: &mut [u8], name: &[u8], folding: bool) -> Told {
    // SAFETY: as in `apply`.
    unsafe {
        raw::cablegorse_name_number(
            table.as_mut_ptr(),
            table.len(),
            name.as_ptr(),
            name.len(),
            folding,
        )
    }
}

/// A number's name: 0 with 1 and its length, or 0 with 0 where the table has no such number.
#[must_use]
pub fn name_at(table: &[u8], number: u16, folding: bool, out: &mut [u8]) -> Told {
    // SAFETY: as in `apply`.
    unsafe {
        raw::cablegorse_name_at(
            table.as_ptr(),
            table.len(),
            number,
            folding,
            out.as_mut_ptr(),
            out.len(),
        )
    }
}

/// The response class of a refusal number: 0 none, 1 BadRequest, 2 Conflict,
/// 3 InternalServerError, 4 Forbidden.
#[must_use]
pub fn response_class(number: u64) -> u32 {
    raw::cablegorse_response_class(number)
}
