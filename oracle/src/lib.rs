// SPDX-License-Identifier: Apache-2.0
//! The original lock state as judge.
//!
//! - [`model`]: states, locks, operations and reads as plain numbers.
//! - [`rules`]: the sound-state test, rules 0 to 9.
//! - [`wire`]: images and feed records, read and written.
//! - [`judge`]: what the original answers, in the numbers of document 01; feed steps; `replay`.
//! - [`boundary`]: the static library's answers, worked out by the judge; [`names`]: name tables;
//!   [`asked`]: an operation as numbers (02, C-12).
//! - [`paper`]: document 01 restated on the model, to be compared with the judge.
//! - [`generate`]: seeded random sound states, operations, reads, feeds and damage.
//! - [`small`]: every state and operation of a tiny universe.
//! - [`stories`]: what clearing away leaves of who holds now (02, C-20).
//! - [`mod@board`]: which active locks cover each ECU, in bytes (02, C-11).
//! - [`vectors`]: a fixed sample of the answers as data.
//! - [`mod@bench`]: states and operations to time.
//! - [`sweep`]: every single-byte change and every cut of an image.
//! - [`original`]: the original itself behind numbers, for benchmarks.
//!
//! A differential run takes a state from [`generate`], hands it to [`judge::Judge`] and, as an
//! image, to the code under test, and compares the two outcomes.

pub mod answer;
pub mod asked;
pub mod bench;
pub mod board;
pub mod boundary;
pub mod generate;
pub mod judge;
pub mod model;
pub mod names;
pub mod paper;
pub mod rules;
pub mod small;
mod sovd;
pub mod stories;
pub mod sweep;
pub mod vectors;
pub mod wire;

pub use sovd::bridge as original;
