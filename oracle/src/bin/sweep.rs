// SPDX-License-Identifier: Apache-2.0
//! Prints what `oracle::sweep` finds of the image on standard input:
//!
//! cargo run --release --bin sweep < ../crates/sweep/stdin | diff - ../crates/sweep/stdout

use std::io::{self, Read};

fn main() -> io::Result<()> {
    let mut image = Vec::new();
    io::stdin().read_to_end(&mut image)?;
    print!("{}", oracle::sweep::lines(&image));
    Ok(())
}
