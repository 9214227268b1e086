// SPDX-License-Identifier: Apache-2.0
//! The original texts are the ones they were, and the compiled copies contain them.

const LOCK_STATE: &str = include_str!("../original/lock_state.rs");
const LOCKS: &str = include_str!("../original/locks.rs");

/// SHA-256 (FIPS 180-4).
fn sha256(bytes: &[u8]) -> String {
    let primes = || (2u64..).filter(|n| (2..*n).take_while(|d| d * d <= *n).all(|d| n % d != 0));
    let k: Vec<u32> = primes().take(64).map(|p| root_bits(p, 3)).collect();
    let mut hash: Vec<u32> = primes().take(8).map(|p| root_bits(p, 2)).collect();
    let mut message = bytes.to_vec();
    message.push(0x80);
    while message.len() % 64 != 56 {
        message.push(0);
    }
    message.extend((bytes.len() as u64 * 8).to_be_bytes());
    for block in message.chunks_exact(64) {
        compress(&mut hash, block, &k);
    }
    hash.iter().map(|word| format!("{word:08x}")).collect()
}

/// The first 32 bits after the point of a prime's square or cube root.
fn root_bits(prime: u64, degree: u32) -> u32 {
    // The largest r with r^degree <= prime * 2^(32 * degree), found bit by bit.
    let fits = |r: u128| match degree {
        2 => r * r <= u128::from(prime) << 64,
        _ => r * r * r <= u128::from(prime) << 96,
    };
    let root = (0..36).rev().fold(
        0u128,
        |r, bit| if fits(r | 1 << bit) { r | 1 << bit } else { r },
    );
    root as u32
}

fn compress(hash: &mut [u32], block: &[u8], k: &[u32]) {
    let mut w: Vec<u32> = block
        .chunks_exact(4)
        .map(|b| u32::from_be_bytes([b[0], b[1], b[2], b[3]]))
        .collect();
    for i in 16..64 {
        let (a, b) = (w[i - 15], w[i - 2]);
        let s0 = a.rotate_right(7) ^ a.rotate_right(18) ^ a >> 3;
        let s1 = b.rotate_right(17) ^ b.rotate_right(19) ^ b >> 10;
        w.push(
            w[i - 16]
                .wrapping_add(s0)
                .wrapping_add(w[i - 7])
                .wrapping_add(s1),
        );
    }
    let mut v = hash.to_vec();
    for i in 0..64 {
        let s1 = v[4].rotate_right(6) ^ v[4].rotate_right(11) ^ v[4].rotate_right(25);
        let choice = v[4] & v[5] ^ !v[4] & v[6];
        let t1 = [s1, choice, k[i], w[i]]
            .iter()
            .fold(v[7], |sum, x| sum.wrapping_add(*x));
        let s0 = v[0].rotate_right(2) ^ v[0].rotate_right(13) ^ v[0].rotate_right(22);
        let majority = v[0] & v[1] ^ v[0] & v[2] ^ v[1] & v[2];
        v.rotate_right(1);
        v[4] = v[4].wrapping_add(t1);
        v[0] = t1.wrapping_add(s0).wrapping_add(majority);
    }
    for (word, add) in hash.iter_mut().zip(v) {
        *word = word.wrapping_add(add);
    }
}

#[test]
fn sha256_is_sha256() {
    assert_eq!(
        sha256(b""),
        "e3b0c44298fc1c149afbf4c8996fb92427ae41e4649b934ca495991b7852b855"
    );
    assert_eq!(
        sha256(b"abc"),
        "ba7816bf8f01cfea414140de5dae2223b00361a396177a9cb410ff61f20015ad"
    );
    assert_eq!(
        sha256(b"abcdbcdecdefdefgefghfghighijhijkijkljklmklmnlmnomnopnopq"),
        "248d6a61d20638b8e5c026930c3e6039a33ce45964ff2167f6ecedd419db06c1"
    );
}

#[test]
fn the_originals_are_unchanged() {
    let state = "9d69444e22d3a038c7233d5cd7fb4584e51434a1b9d1584f3e9164017c580461";
    let locks = "24d89f55fe707f8037940f64c56950d15b745c6592feded3e7a899a0d3cf0074";
    assert_eq!(sha256(LOCK_STATE.as_bytes()), state);
    assert_eq!(sha256(LOCKS.as_bytes()), locks);
}

#[test]
fn what_is_compiled_contains_them() {
    let compiled = include_str!(concat!(env!("OUT_DIR"), "/lock_state.rs"));
    assert!(
        compiled.contains(LOCK_STATE),
        "the whole text, in one piece"
    );
    let items = include_str!(concat!(env!("OUT_DIR"), "/locks.rs"));
    for function in [
        "fn map_state_error(",
        "fn prepare_runtime_update(",
        "fn delete_defunct(",
        "fn vehicle_lock_owner_sub(",
        "fn has_non_vehicle_locks(",
    ] {
        assert!(items.contains(function), "{function}");
    }
    let ours = ["impl Locks {", "}"];
    for line in items.lines().filter(|line| !ours.contains(line)) {
        assert!(LOCKS.lines().any(|original| original == line), "{line}");
    }
}
