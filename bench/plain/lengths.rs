//! Prints so many lengths of arrays whose nodes begin in one place of the table of nodes where its seed is 0.
//! With a second argument they are the first numbers.

use std::env;

const MULTIPLIER: u64 = 0x9e37_79b9_7f4a_7c15;

/// The kit's quick hasher before it has taken anything.
const INITIAL: u64 = 0x243f_6a88_85a3_08d3;

/// A table of 50,000 nodes has so many bits of its places.
const MASK: u32 = (1 << 13) - 1;

/// The hasher's state after eight more bytes.
fn taken(state: u64, bytes: u64) -> u64 {
    let product = (state ^ bytes) as u128 * (MULTIPLIER ^ 16) as u128;
    product as u64 ^ (product >> 64) as u64
}

/// The place where the search for a length begins.
fn place(length: u64) -> u32 {
    let seed = 0;
    let constant = 13;
    let value = 0;
    let children = 0;
    let state = [seed, constant, value, length, children].into_iter().fold(INITIAL, taken);
    (state ^ (state >> 32)) as u32 & MASK
}

fn main() {
    let arguments: Vec<String> = env::args().collect();
    let count = arguments.get(1).and_then(|count| count.parse().ok()).unwrap_or(50_000);
    let is_ordinary = arguments.len() > 2;
    for length in (0..u64::MAX).filter(|length| is_ordinary || place(*length) == 77).take(count) {
        println!("{length}");
    }
}
