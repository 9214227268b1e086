// SPDX-License-Identifier: Apache-2.0
//! The original in its own surroundings: the modules have the names its text refers to.

// `mod lock_state`: the original text, unchanged, with a child module appended (see build.rs).
include!(concat!(env!("OUT_DIR"), "/lock_state.rs"));

pub mod bridge;
mod locks;
