// SPDX-License-Identifier: Apache-2.0
//! Links the proved archive: RATTLE_STATICLIB, else ../target/staticlib beside this crate.

use std::{env, path::PathBuf};

/// The archive's name, as bin/archive has it.
const ARCHIVE: &str = "cablegorse";

fn main() {
    println!("cargo::rerun-if-env-changed=RATTLE_STATICLIB");
    println!("cargo::rerun-if-changed=build.rs");
    let here = PathBuf::from(env::var_os("CARGO_MANIFEST_DIR").expect("cargo sets it"));
    let folder = env::var_os("RATTLE_STATICLIB")
        .map_or_else(|| here.join("../target/staticlib"), PathBuf::from);
    let archive = folder.join(format!("lib{ARCHIVE}.a"));
    println!("cargo::rerun-if-changed={}", archive.display());
    if !archive.is_file() {
        println!(
            "cargo::error={} is not there: run bin/archive, or set RATTLE_STATICLIB to the folder that holds it",
            archive.display()
        );
        return;
    }
    println!("cargo::rustc-link-search=native={}", folder.display());
    println!("cargo::rustc-link-lib=static={ARCHIVE}");
}
