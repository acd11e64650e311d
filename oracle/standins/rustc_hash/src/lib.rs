//! Stand-in for `rustc-hash`: a fast hasher of the same kind, without its exact numbers. The crate's files never
//! iterate over a map or a set, so these cannot be seen.

use std::{
    borrow::Borrow,
    collections::HashMap,
    hash::{BuildHasherDefault, Hash, Hasher},
};

pub type FxBuildHasher = BuildHasherDefault<FxHasher>;
pub type FxHashMap<K, V> = HashMap<K, V, FxBuildHasher>;

#[derive(Clone, Default)]
pub struct FxHasher(u64);

impl FxHasher {
    fn add(&mut self, word: u64) {
        self.0 = (self.0 ^ word)
            .wrapping_mul(0x9E37_79B9_7F4A_7C15)
            .rotate_left(26);
    }
}

impl Hasher for FxHasher {
    fn write(&mut self, bytes: &[u8]) {
        for chunk in bytes.chunks(8) {
            let mut word = [0; 8];
            word[..chunk.len()].copy_from_slice(chunk);
            self.add(u64::from_le_bytes(word));
        }
    }

    fn write_u8(&mut self, n: u8) {
        self.add(n.into());
    }

    fn write_u16(&mut self, n: u16) {
        self.add(n.into());
    }

    fn write_u32(&mut self, n: u32) {
        self.add(n.into());
    }

    fn write_u64(&mut self, n: u64) {
        self.add(n);
    }

    fn write_usize(&mut self, n: usize) {
        self.add(n as u64);
    }

    fn finish(&self) -> u64 {
        self.0
    }
}

/// A set that also knows the order in which its values were inserted; the oracle writes forced sources in that order.
#[derive(Debug)]
pub struct FxHashSet<T> {
    order: FxHashMap<T, u64>,
    inserted: u64,
}

impl<T> Default for FxHashSet<T> {
    fn default() -> Self {
        FxHashSet {
            order: HashMap::default(),
            inserted: 0,
        }
    }
}

impl<T: Eq + Hash> FxHashSet<T> {
    pub fn contains<Q: ?Sized + Eq + Hash>(&self, value: &Q) -> bool
    where
        T: Borrow<Q>,
    {
        self.order.contains_key(value)
    }

    pub fn insert(&mut self, value: T) -> bool {
        let number = self.inserted;
        self.inserted += 1;
        *self.order.entry(value).or_insert(number) == number
    }

    pub fn remove<Q: ?Sized + Eq + Hash>(&mut self, value: &Q) -> bool
    where
        T: Borrow<Q>,
    {
        self.order.remove(value).is_some()
    }

    /// Not in rustc-hash: the values, first inserted first.
    pub fn in_order(&self) -> Vec<&T> {
        let mut values: Vec<_> = self.order.iter().collect();
        values.sort_by_key(|(_, number)| **number);
        values.into_iter().map(|(value, _)| value).collect()
    }
}
