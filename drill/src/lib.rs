// SPDX-License-Identifier: Apache-2.0
//! What the takeover drill and the test of the accident share: a bad link and what testers ask
//! for, each by a seed.

pub mod link;
pub mod rng;
pub mod work;
