//! Hashing of 64-bit keys that fit one word exactly, and of sets by a sum of mixed numbers.

use std::collections::HashMap;
use std::hash::{BuildHasherDefault, Hasher};

#[derive(Default)]
pub struct Mix(u64);

impl Hasher for Mix {
    fn finish(&self) -> u64 {
        self.0
    }

    fn write(&mut self, bytes: &[u8]) {
        bytes.iter().for_each(|&b| self.write_u64(u64::from(b)));
    }

    fn write_u64(&mut self, key: u64) {
        self.0 = mixed(self.0 ^ key);
    }
}

pub type Table<A> = HashMap<u64, A, BuildHasherDefault<Mix>>;

/// The finaliser of MurmurHash3, a permutation of 64-bit numbers.
pub fn mixed(key: u64) -> u64 {
    let mut k = key.wrapping_add(0x9e37_79b9_7f4a_7c15);
    k = (k ^ (k >> 33)).wrapping_mul(0xff51_afd7_ed55_8ccd);
    k = (k ^ (k >> 33)).wrapping_mul(0xc4ce_b9fe_1a85_ec53);
    k ^ (k >> 33)
}

/// Up to five numbers below 4,096 in one word.
pub fn packed(numbers: &[u32]) -> u64 {
    numbers.iter().fold(0, |key, &n| key << 12 | u64::from(n))
}
