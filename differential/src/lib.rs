// SPDX-License-Identifier: Apache-2.0
//! The static library beside the original: both get the same bytes and buffers filled alike, and
//! answers and every byte of every buffer are compared.

pub mod boards;
pub mod conflicts;
pub mod pair;
pub mod run;
pub mod stories;
pub mod tally;
pub mod words;
pub mod writer;
