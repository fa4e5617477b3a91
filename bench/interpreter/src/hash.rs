//! A small hash for short keys. Names and symbols are looked up once each while a text is read.

use std::collections::HashMap;
use std::hash::{BuildHasherDefault, Hasher};

/// Takes eight bytes at a time, multiplied and turned.
#[derive(Default)]
pub struct Short(u64);

impl Hasher for Short {
    fn write(&mut self, bytes: &[u8]) {
        for chunk in bytes.chunks(8) {
            let mut word = [0; 8];
            word[..chunk.len()].copy_from_slice(chunk);
            self.write_u64(u64::from_le_bytes(word));
        }
    }

    fn write_u64(&mut self, word: u64) {
        self.0 = (self.0.rotate_left(5) ^ word).wrapping_mul(0x517c_c1b7_2722_0a95);
    }

    fn write_usize(&mut self, word: usize) {
        self.write_u64(word as u64);
    }

    /// A product's high bits depend on the whole key, and a table looks at the low ones.
    fn finish(&self) -> u64 {
        self.0.rotate_left(26)
    }
}

pub type ShortMap<K, V> = HashMap<K, V, BuildHasherDefault<Short>>;
