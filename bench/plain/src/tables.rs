//! Hash tables with a quick hash.

use std::collections::HashMap;
use std::hash::{BuildHasherDefault, Hasher};

/// An odd number whose bits are spread.
const MULTIPLIER: u64 = 0x9e37_79b9_7f4a_7c15;

/// A hash of words.
#[derive(Default)]
pub struct QuickHasher {
    hash: u64,
}

impl Hasher for QuickHasher {
    fn finish(&self) -> u64 {
        self.hash
    }

    fn write_u64(&mut self, word: u64) {
        let product = (self.hash ^ word).wrapping_mul(MULTIPLIER);
        self.hash = product ^ product >> 32;
    }

    fn write_usize(&mut self, word: usize) {
        self.write_u64(word as u64);
    }

    fn write(&mut self, octets: &[u8]) {
        for chunk in octets.chunks(8) {
            let mut word = [0; 8];
            word[..chunk.len()].copy_from_slice(chunk);
            self.write_u64(u64::from_le_bytes(word));
        }
    }
}

/// A number that tells most pairs of texts apart.
pub fn print_of(first: &[u8], second: &[u8]) -> u32 {
    let mut hasher = QuickHasher::default();
    hasher.write(first);
    hasher.write_usize(first.len());
    hasher.write(second);
    hasher.finish() as u32
}

/// A hash table.
pub type Table<K, V> = HashMap<K, V, BuildHasherDefault<QuickHasher>>;
