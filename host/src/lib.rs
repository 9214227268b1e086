// SPDX-License-Identifier: Apache-2.0
#![doc = include_str!("../README.md")]

pub mod library;
mod names;
mod record;
mod refusal;
mod replica;
mod types;

pub use names::{NameTable, Named, TABLE_BYTES};
pub use record::{ACTIVE_BYTES, DEFUNCT_BYTES, HEAD_BYTES, LIST_LIMIT, ListTooLong, Operation};
pub use refusal::{Reason, Refusal, ResponseClass, response_class};
pub use replica::{Done, Replica, Run, Step};
pub use types::{
    Active, BadUuid, Coverage, Defunct, EcuSet, Holder, Lock, LockId, OnEcu, Overlap, Scope,
    TesterPresent,
};
