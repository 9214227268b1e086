// SPDX-License-Identifier: Apache-2.0
//! Name tables, written from document 01's "Name table": a count (u16), then 256 entries of one
//! length byte and 64 bytes, unused bytes zero. Refusals are 01's numbers.

/// Bytes of a table.
pub const SIZE: usize = 16_642;
const MOST: usize = 256;
const LONGEST: usize = 64;

/// A name as a table keeps it: ASCII letters small where it folds.
#[must_use]
pub fn kept(name: &[u8], folding: bool) -> Vec<u8> {
    if folding {
        name.to_ascii_lowercase()
    } else {
        name.to_vec()
    }
}

/// The names of a right table, or 27.
pub fn names(table: &[u8], folding: bool) -> Result<Vec<&[u8]>, u8> {
    if table.len() != SIZE {
        return Err(27);
    }
    let count = usize::from(u16::from_le_bytes([table[0], table[1]]));
    if count > MOST {
        return Err(27);
    }
    let mut names: Vec<&[u8]> = Vec::new();
    for (place, entry) in table[2..].chunks_exact(1 + LONGEST).enumerate() {
        let length = usize::from(entry[0]);
        if length > LONGEST || entry[1 + length..].iter().any(|byte| *byte != 0) {
            return Err(27);
        }
        let name = &entry[1..1 + length];
        if place >= count {
            // An unused entry is all zero.
            if length != 0 {
                return Err(27);
            }
        } else if kept(name, folding) != name || names.contains(&name) {
            return Err(27);
        } else {
            names.push(name);
        }
    }
    Ok(names)
}

/// The name's number, entered if it is new; 27, 22, 23.
pub fn number(table: &mut [u8], name: &[u8], folding: bool) -> Result<u8, u8> {
    let names = names(table, folding)?;
    if name.len() > LONGEST {
        return Err(22);
    }
    let name = kept(name, folding);
    if let Some(place) = names.iter().position(|known| **known == name) {
        return Ok(place as u8);
    }
    let place = names.len();
    if place == MOST {
        return Err(23);
    }
    let start = 2 + place * (1 + LONGEST);
    table[start] = name.len() as u8;
    table[start + 1..start + 1 + name.len()].copy_from_slice(&name);
    table[..2].copy_from_slice(&(place as u16 + 1).to_le_bytes());
    Ok(place as u8)
}

/// The number's name, none where the table has no such number; 27.
pub fn name(table: &[u8], number: u16, folding: bool) -> Result<Option<&[u8]>, u8> {
    Ok(names(table, folding)?.get(usize::from(number)).copied())
}
