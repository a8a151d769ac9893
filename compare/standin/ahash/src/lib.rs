//! Stand-in for the crate `ahash`: std's maps with a seedable build hasher. Eight bytes at a time are mixed by a folded
//! multiplication, as `ahash` does without AES, so that the benchmark does not charge the original for a slow hash.
//! The seed is a process-wide number; every map made after `set_seed` hashes with it, so
//! the iteration order of maps and sets can be varied on purpose and repeated.
use std::collections::{HashMap, HashSet};
use std::hash::{BuildHasher, Hasher};
use std::sync::atomic::{AtomicU64, Ordering};

static SEED: AtomicU64 = AtomicU64::new(0);

pub fn set_seed(seed: u64) {
    SEED.store(seed, Ordering::SeqCst);
}

#[derive(Clone, Debug)]
pub struct RandomState(u64);

impl Default for RandomState {
    fn default() -> Self {
        RandomState(SEED.load(Ordering::SeqCst))
    }
}

impl RandomState {
    pub fn new() -> Self {
        Self::default()
    }
}

impl BuildHasher for RandomState {
    type Hasher = Folded;
    fn build_hasher(&self) -> Folded {
        let mut h = Folded(0x243F_6A88_85A3_08D3);
        h.write_u64(self.0);
        h
    }
}

pub struct Folded(u64);

impl Hasher for Folded {
    fn write(&mut self, bytes: &[u8]) {
        let mut words = bytes.chunks_exact(8);
        for w in &mut words {
            self.write_u64(u64::from_le_bytes(w.try_into().unwrap()));
        }
        let rest = words.remainder();
        if !rest.is_empty() {
            let last = rest.iter().rev().fold(0, |n, b| n << 8 | u64::from(*b));
            self.write_u64(last ^ (rest.len() as u64) << 56);
        }
    }

    fn write_u8(&mut self, n: u8) {
        self.write_u64(n.into());
    }

    fn write_u64(&mut self, n: u64) {
        let product = u128::from(self.0 ^ n) * 0x5851_F42D_4C95_7F2D;
        self.0 = product as u64 ^ (product >> 64) as u64;
    }

    fn finish(&self) -> u64 {
        let product = u128::from(self.0) * 0x9E37_79B9_7F4A_7C15;
        (product as u64 ^ (product >> 64) as u64).rotate_left(self.0 as u32 & 63)
    }
}

pub type AHashMap<K, V> = HashMap<K, V, RandomState>;
pub type AHashSet<K> = HashSet<K, RandomState>;
