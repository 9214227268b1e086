// SPDX-License-Identifier: Apache-2.0
//! Every single-byte change and every cut of an image, read by [`wire::read_image`]: the lines that
//! the program `sweep` prints of the code under test. A line for each byte: its place and the sum of
//! the answers to its 255 changes; then the sum of the answers to the cuts, and how often each
//! answer came.

use std::fmt::Write;

use crate::{answer::Refusal, wire};

/// Done, then the refusals 17 to 20, then the rules 0 to 9 of the refusal 12.
const ANSWERS: usize = 15;

/// FNV-1a on 64 bits, a word at a time.
#[derive(Clone, Copy)]
struct Sum(u64);

impl Sum {
    const START: Self = Self(0xcbf2_9ce4_8422_2325);

    fn mix(self, word: u64) -> Self {
        Self((self.0 ^ word).wrapping_mul(0x0000_0100_0000_01b3))
    }
}

/// The answer's place among the counts, and its value: where the refusal stands, or the sum of the
/// bytes that are written of what was accepted.
fn answer(image: &[u8]) -> (usize, u64) {
    match wire::read_image(image) {
        Ok((state, expected)) => {
            let bytes = wire::write_image(&state, expected).expect("sound, since it was accepted");
            let sum = bytes
                .iter()
                .fold(Sum::START, |sum, byte| sum.mix(u64::from(*byte)));
            (0, sum.0)
        }
        Err(Refusal::Torn(at)) => (1, at as u64),
        Err(Refusal::BadKind(at)) => (2, at as u64),
        Err(Refusal::BadField(at)) => (3, at as u64),
        Err(Refusal::BadOrder(at)) => (4, at as u64),
        Err(Refusal::UnsoundState(rule)) => (5 + usize::from(rule), 0),
    }
}

/// The sum of the answers to some images, each counted.
fn sum<'a>(images: impl Iterator<Item = &'a [u8]>, counts: &mut [u64; ANSWERS]) -> u64 {
    let mut total = Sum::START;
    for image in images {
        let (place, value) = answer(image);
        counts[place] += 1;
        total = total.mix(place as u64).mix(value);
    }
    total.0
}

/// The whole output.
#[must_use]
pub fn lines(image: &[u8]) -> String {
    let mut counts = [0; ANSWERS];
    let mut text = String::new();
    for place in 0..image.len() {
        // In the order of the code under test.
        let changed: Vec<Vec<u8>> = (1..=255)
            .rev()
            .map(|change: u8| {
                let mut copy = image.to_vec();
                copy[place] ^= change;
                copy
            })
            .collect();
        let total = sum(changed.iter().map(Vec::as_slice), &mut counts);
        put(&mut text, &format!("byte {place}"), total);
    }
    let cuts = sum((0..image.len()).map(|end| &image[..end]), &mut counts);
    put(&mut text, &format!("cuts {}", image.len()), cuts);
    for (place, count) in counts.into_iter().enumerate() {
        let name = match place {
            0 => "answer 0".to_string(),
            1..=4 => format!("answer {}", place + 16),
            _ => format!("answer 12 rule {}", place - 5),
        };
        put(&mut text, &name, count);
    }
    text
}

fn put(text: &mut String, name: &str, number: u64) {
    writeln!(text, "{name} {number}").expect("a string takes every line");
}
