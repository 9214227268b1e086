// SPDX-License-Identifier: Apache-2.0
//! Streams of records, and what primary and spare tell each other beside them.

/// Takes whole records off the front of what has arrived: each says its own length.
pub fn records(arrived: &mut Vec<u8>) -> Vec<Vec<u8>> {
    let mut records = Vec::new();
    let mut at = 0;
    while let Some([low, high]) = arrived.get(at..at + 2) {
        let end = at + 2 + usize::from(u16::from_le_bytes([*low, *high]));
        let Some(record) = arrived.get(at..end) else {
            break;
        };
        records.push(record.to_vec());
        at = end;
    }
    arrived.drain(..at);
    records
}

/// The number of a whole record.
pub fn sequence(record: &[u8]) -> u32 {
    u32::from_le_bytes([record[4], record[5], record[6], record[7]])
}

/// From the spare to the primary: the number it expects, and whether it misses that record.
#[derive(Clone, Copy, Debug, PartialEq, Eq)]
pub struct Wish {
    pub expected: u32,
    pub resend: bool,
}

impl Wish {
    pub fn encode(self) -> [u8; 5] {
        let [a, b, c, d] = self.expected.to_le_bytes();
        [a, b, c, d, self.resend.into()]
    }

    pub fn decode([a, b, c, d, resend]: [u8; 5]) -> Self {
        Self {
            expected: u32::from_le_bytes([a, b, c, d]),
            resend: resend != 0,
        }
    }
}

/// An entry of the primary's book, which only the referee reads: what it made, or how far records
/// were confirmed to testers.
pub enum Entry {
    Made(Made),
    Confirmed { expected: u32 },
}

/// A record with the image after it, and the board where the primary keeps one.
pub struct Made {
    pub record: Vec<u8>,
    pub image: Vec<u8>,
    pub board: Vec<u8>,
}

impl Entry {
    pub fn encode(&self) -> Vec<u8> {
        let mut bytes = Vec::new();
        match self {
            Self::Made(made) => {
                let parts = [&made.record, &made.image, &made.board];
                for part in parts {
                    bytes.extend((part.len() as u32).to_le_bytes());
                }
                for part in parts {
                    bytes.extend_from_slice(part);
                }
            }
            Self::Confirmed { expected } => {
                for number in [0, *expected, 0] {
                    bytes.extend(number.to_le_bytes());
                }
            }
        }
        bytes
    }

    /// The whole entries of a book; a last one that is cut short is left out.
    pub fn decode_all(book: &[u8]) -> Vec<Self> {
        let mut entries = Vec::new();
        let mut rest = book;
        while let Some((head, after)) = rest.split_first_chunk::<12>() {
            let number =
                |at| u32::from_le_bytes([head[at], head[at + 1], head[at + 2], head[at + 3]]);
            let [record, image, board] = [0, 4, 8].map(|at| number(at) as usize);
            if record == 0 {
                entries.push(Self::Confirmed {
                    expected: number(4),
                });
                rest = after;
                continue;
            }
            let Some((body, after)) = after.split_at_checked(record + image + board) else {
                break;
            };
            entries.push(Self::Made(Made {
                record: body[..record].to_vec(),
                image: body[record..record + image].to_vec(),
                board: body[record + image..].to_vec(),
            }));
            rest = after;
        }
        entries
    }
}
