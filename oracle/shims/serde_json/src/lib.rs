// SPDX-License-Identifier: Apache-2.0
//! The two names the original imports. As in the real crate's default build, a map is a
//! `BTreeMap` and a value takes 32 bytes, so that cloning costs about the same.

use std::collections::BTreeMap;

pub type Map<K, V> = BTreeMap<K, V>;

#[derive(Clone, Debug, PartialEq)]
pub enum Value {
    Null,
    Bool(bool),
    Number(u64),
    String(String),
    Array(Vec<Value>),
    Object(Map<String, Value>),
}
