//! Prints identifiers whose hashes fall into one group of the kit's table, for `crafted.py`.
//!
//!     crafted TYPE COUNT
//!
//! The hash is SipHash-1-3 without a key, over what the program hashes of a name: of a record (TYPE is PNO) its identifier, of a class
//! its identifier and its type.
use std::collections::HashSet;
use std::hash::{DefaultHasher, Hasher};
use std::io::Write;

const LETTERS: &[u8; 62] = b"ABCDEFGHIJKLMNOPQRSTUVWXYZabcdefghijklmnopqrstuvwxyz0123456789";
const LENGTH: usize = 12;

/// The group of a table with so many groups, less one.
fn group(hash: u64, mask: u32) -> u32 {
    (hash ^ hash >> 32) as u32 & mask
}

fn hash(kind: &str, identifier: &[u8]) -> u64 {
    let mut state = DefaultHasher::new();
    state.write(identifier);
    if kind != "PNO" {
        state.write(kind.as_bytes());
    }
    state.finish()
}

fn main() {
    let words: Vec<String> = std::env::args().collect();
    let (kind, count) = (&words[1], words[2].parse::<usize>().unwrap());
    let mask = (count.div_ceil(9).next_power_of_two() - 1) as u32;
    let mut found = HashSet::new();
    let mut seed = 88172645463325252u64;
    while found.len() < count {
        seed ^= seed << 13;
        seed ^= seed >> 7;
        seed ^= seed << 17;
        let mut name = [0u8; LENGTH];
        for (k, letter) in name.iter_mut().enumerate().take(LENGTH - 1) {
            *letter = LETTERS[(seed >> (5 * k)) as usize % 62];
        }
        for last in LETTERS {
            name[LENGTH - 1] = *last;
            if group(hash(kind, &name), mask) == 0 && found.len() < count && found.insert(name) {
                std::io::stdout().write_all(&name).unwrap();
                println!();
            }
        }
    }
}
