// SPDX-License-Identifier: Apache-2.0
//! The least host in Rust: begins with an image, follows a feed as its spare, takes over, and
//! says who holds ECU 5. examples/follow.c is the same in C and prints the same.
//!
//!     cargo run --example follow -- IMAGE FEED

use std::{env, error::Error, fs};

use cablegorse::{Active, Coverage, Lock, LockId, Operation, Replica, Scope};

fn main() -> Result<(), Box<dyn Error>> {
    let [image, feed] = &env::args().skip(1).collect::<Vec<_>>()[..] else {
        return Err("usage: follow IMAGE FEED".into());
    };
    let mut replica = Replica::from_image(&fs::read(image)?)?;

    // As the spare: all that has arrived at once. What is due is applied, what is out of turn
    // passed over.
    let run = replica.follow(&fs::read(feed)?);
    println!("{} records read, {} applied", run.read, run.applied);
    if let Some(refusal) = run.stop {
        // After 17 a real host keeps the bytes from there on for the next chunk.
        println!("bad {} at byte {}", refusal.number(), run.place);
    }
    println!(
        "taken over: revision {}, record {} is due",
        replica.revision(),
        replica.expected()
    );

    // As the primary: a tester (subject 9) asks for ECU 5, and gets the record's own answer. A
    // real host sends the record on, whatever that is.
    let lock = Active {
        lock: Lock {
            id: LockId::from_u128(99),
            scope: Scope::Ecu(5),
            exclusive: false,
            coverage: Coverage::of(&[5]),
            subject: 9,
            principal: 0,
            metadata: 0,
        },
        expires: 4000,
        parent: None,
    };
    let (_record, step) = replica.perform(&Operation::InsertActive { lock })?;
    println!(
        "as primary, record {} asks for ECU 5: {}, {}",
        step.sequence,
        step.number(),
        if step.applied {
            "applied"
        } else {
            "not applied"
        }
    );

    match replica.active_for_scope(Scope::Ecu(5)) {
        Some(held) => println!("ECU 5 is held by subject {}", held.lock.subject),
        None => println!("ECU 5 is held by nobody"),
    }
    Ok(())
}
