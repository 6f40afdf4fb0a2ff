//! hashbrown's map, rustc-hash's hasher, smallvec's vector.

use core::hash::{BuildHasherDefault, Hasher};
use core::ops::{Deref, DerefMut};

pub use std::collections::HashMap;

pub type FxBuildHasher = BuildHasherDefault<MixHasher>;

/// A multiplying hasher. The pass never walks the map, so its order is not seen.
#[derive(Default, Clone)]
pub struct MixHasher(u64);

impl Hasher for MixHasher {
    fn write(&mut self, bytes: &[u8]) {
        for &byte in bytes {
            self.write_u64(byte.into());
        }
    }

    fn write_u32(&mut self, word: u32) {
        self.write_u64(word.into());
    }

    fn write_u64(&mut self, word: u64) {
        self.0 = (self.0.rotate_left(5) ^ word).wrapping_mul(0x9e37_79b9_7f4a_7c15);
    }

    fn finish(&self) -> u64 {
        self.0 ^ (self.0 >> 32)
    }
}

/// The element type of `SmallVec<[T; N]>`.
pub trait Array {
    type Item;
}

impl<T, const N: usize> Array for [T; N] {
    type Item = T;
}

/// A plain vector: how many elements lie inline is not seen.
pub struct SmallVec<A: Array>(Vec<A::Item>);

impl<A: Array> SmallVec<A> {
    pub fn with_capacity(capacity: usize) -> Self {
        Self(Vec::with_capacity(capacity))
    }

    pub fn push(&mut self, item: A::Item) {
        self.0.push(item);
    }

    pub fn clear(&mut self) {
        self.0.clear();
    }

    pub fn extend_from_slice(&mut self, items: &[A::Item])
    where
        A::Item: Clone,
    {
        self.0.extend_from_slice(items);
    }
}

impl<A: Array> Default for SmallVec<A> {
    fn default() -> Self {
        Self(Vec::new())
    }
}

impl<A: Array> Clone for SmallVec<A>
where
    A::Item: Clone,
{
    fn clone(&self) -> Self {
        Self(self.0.clone())
    }
}

impl<A: Array> Deref for SmallVec<A> {
    type Target = [A::Item];

    fn deref(&self) -> &Self::Target {
        &self.0
    }
}

impl<A: Array> DerefMut for SmallVec<A> {
    fn deref_mut(&mut self) -> &mut Self::Target {
        &mut self.0
    }
}
