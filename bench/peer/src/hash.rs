//! A fast, deterministic hasher: one folded multiplication a word (the algorithm of foldhash).

use std::hash::{BuildHasherDefault, Hasher};

pub type Fold = BuildHasherDefault<FoldHasher>;

const SEED: u64 = 0x243f_6a88_85a3_08d3;

const FACTOR: u64 = 0x9e37_79b9_7f4a_7c15;

pub struct FoldHasher {
    state: u64,
}

impl Default for FoldHasher {
    fn default() -> FoldHasher {
        FoldHasher { state: SEED }
    }
}

fn fold(a: u64, b: u64) -> u64 {
    let product = u128::from(a) * u128::from(b);
    product as u64 ^ (product >> 64) as u64
}

impl Hasher for FoldHasher {
    fn finish(&self) -> u64 {
        self.state
    }

    fn write(&mut self, bytes: &[u8]) {
        for chunk in bytes.chunks(8) {
            let mut word = [0; 8];
            word[..chunk.len()].copy_from_slice(chunk);
            self.write_u64(u64::from_le_bytes(word));
        }
    }

    fn write_u64(&mut self, word: u64) {
        self.state = fold(self.state ^ word, FACTOR);
    }

    fn write_u128(&mut self, number: u128) {
        self.state = fold(number as u64 ^ self.state, (number >> 64) as u64 ^ FACTOR);
    }
}
