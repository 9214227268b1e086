// SPDX-License-Identifier: Apache-2.0
//! Names by number: ECU, functional group and subject names, each in a table of its own.

use std::fmt;

use crate::{library, refusal::Refusal};

/// Bytes of a table: a count (u16), then 256 entries of one length byte and 64 bytes.
pub const TABLE_BYTES: usize = 16_642;

/// A name's number, and whether the table has learned the name just now.
#[derive(Clone, Copy, Debug, PartialEq, Eq, Hash)]
pub struct Named {
    /// The number, 0 to 255.
    pub number: u16,
    /// Whether the name is new: then the table changed, and the other end needs it before the
    /// first record that uses the number.
    pub new: bool,
}

/// A table of up to 256 names of 0 to 64 bytes. A name keeps its number.
///
/// Whether a table folds names to small letters belongs to the table for good: ECU and group
/// tables fold, subject tables don't. An ECU table that is once used without folding takes
/// `Engine` and `engine` for two units, and two testers may lock one; with folding again it is 27
/// from then on. A subject table that is used with folding is 27 as soon as a name in it has a
/// capital letter, and takes `Ann` for `ann` before. Here it is said once, where the table is
/// made or read.
#[derive(Clone, PartialEq, Eq)]
pub struct NameTable {
    bytes: Vec<u8>,
    folding: bool,
}

impl NameTable {
    /// An empty table that keeps names in small (ASCII) letters: for ECUs and groups.
    #[must_use]
    pub fn folding() -> Self {
        Self::blank(true)
    }

    /// An empty table that keeps names as they are: for subjects.
    #[must_use]
    pub fn exact() -> Self {
        Self::blank(false)
    }

    fn blank(folding: bool) -> Self {
        Self {
            bytes: vec![0; TABLE_BYTES],
            folding,
        }
    }

    /// The table of these bytes, which folds names or doesn't; 27 where they aren't such a table.
    pub fn from_bytes(bytes: &[u8], folding: bool) -> Result<Self, Refusal> {
        let told = library::name_at(bytes, 0, folding, &mut [0; 64]);
        match Refusal::from_told(&told) {
            Some(refusal) => Err(refusal),
            None => Ok(Self {
                bytes: bytes.to_vec(),
                folding,
            }),
        }
    }

    /// The table's bytes, to keep or to send.
    #[must_use]
    pub fn as_bytes(&self) -> &[u8] {
        &self.bytes
    }

    /// How many names there are.
    #[must_use]
    pub fn len(&self) -> usize {
        usize::from(u16::from_le_bytes([self.bytes[0], self.bytes[1]]))
    }

    /// Whether there are none.
    #[must_use]
    pub fn is_empty(&self) -> bool {
        self.len() == 0
    }

    /// The name's number; a new name gets the next one, and is told apart. 22 for a name of more
    /// than 64 bytes, 23 for a new name in a full table.
    pub fn learn(&mut self, name: &[u8]) -> Result<Named, Refusal> {
        let before = self.len();
        let told = library::name_number(&mut self.bytes, name, self.folding);
        match Refusal::from_told(&told) {
            Some(refusal) => Err(refusal),
            None => Ok(Named {
                // At most 255.
                number: told.values[0] as u16,
                new: self.len() > before,
            }),
        }
    }

    /// As [`NameTable::learn`], the number alone.
    pub fn number(&mut self, name: &[u8]) -> Result<u16, Refusal> {
        self.learn(name).map(|named| named.number)
    }

    /// The name with this number.
    #[must_use]
    pub fn name(&self, number: u16) -> Option<Vec<u8>> {
        let mut out = [0; 64];
        let told = library::name_at(&self.bytes, number, self.folding, &mut out);
        (told.number == 0 && told.values[0] == 1).then(|| out[..told.values[1] as usize].to_vec())
    }
}

impl fmt::Debug for NameTable {
    fn fmt(&self, f: &mut fmt::Formatter<'_>) -> fmt::Result {
        let names = (0..self.len() as u16).filter_map(|number| self.name(number));
        f.debug_list()
            .entries(names.map(|name| String::from_utf8_lossy(&name).into_owned()))
            .finish()
    }
}
