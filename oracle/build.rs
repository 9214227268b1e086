// SPDX-License-Identifier: Apache-2.0
//! Writes two files from the original texts, which stay as they are on disk:
//! `lock_state.rs` = the whole original inside its module, followed by `access.rs`, a child
//! module, because only a child module sees the private fields; and `locks.rs` = the items of
//! the second source that are taken over, cut out line by line.

use std::{env, fs, path::PathBuf};

const STATE: &str = "original/lock_state.rs";
const LOCKS: &str = "original/locks.rs";
const ACCESS: &str = "original/access.rs";

fn main() {
    println!("cargo::rerun-if-changed=build.rs");
    let [state, locks, access] = [STATE, LOCKS, ACCESS].map(read);
    write(
        "lock_state.rs",
        &format!(
            "// 01 leaves `covered_ecus` out.\n#[allow(dead_code)]\npub(crate) mod lock_state {{\n{state}\npub(crate) mod access {{\n{access}\n}}\n}}\n"
        ),
    );
    let methods = [
        "    async fn delete_defunct(",
        "    pub async fn prepare_runtime_update(",
        "    pub(crate) async fn vehicle_lock_owner_sub(",
        "    pub(crate) async fn has_non_vehicle_locks(",
    ]
    .map(|first| item(&locks, first))
    .join("\n");
    let error = item(&locks, "pub enum LockUpdateError {");
    let map = item(&locks, "fn map_state_error(");
    write(
        "locks.rs",
        &format!("{error}\nimpl Locks {{\n{methods}\n}}\n{map}\n"),
    );
}

fn read(path: &str) -> String {
    println!("cargo::rerun-if-changed={path}");
    fs::read_to_string(path).unwrap_or_else(|e| panic!("{path}: {e}"))
}

fn write(name: &str, text: &str) {
    let out = PathBuf::from(env::var_os("OUT_DIR").expect("cargo sets OUT_DIR"));
    fs::write(out.join(name), text).unwrap_or_else(|e| panic!("{name}: {e}"));
}

/// The item whose first line begins so, with the attributes and comments above it, up to the
/// closing brace at its own indentation.
fn item(text: &str, first: &str) -> String {
    let lines: Vec<&str> = text.lines().collect();
    let at = lines
        .iter()
        .position(|line| line.starts_with(first))
        .unwrap_or_else(|| panic!("no line begins with {first:?}"));
    let indent = &first[..first.len() - first.trim_start().len()];
    let close = format!("{indent}}}");
    let end = at
        + lines[at..]
            .iter()
            .position(|line| *line == close)
            .expect("a closing brace");
    let above = |line: &&&str| {
        let line = line.trim_start();
        line.starts_with("#[") || line.starts_with("///")
    };
    let start = at - lines[..at].iter().rev().take_while(above).count();
    lines[start..=end].join("\n")
}
