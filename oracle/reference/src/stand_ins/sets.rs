//! Sets of entities.

use core::fmt;
use core::marker::PhantomData;
use core::ops::BitAnd;

use super::EntityRef;

/// A set of entities below a bound.
pub struct EntitySet<K> {
    present: Vec<bool>,
    marker: PhantomData<K>,
}

impl<K: EntityRef> EntitySet<K> {
    pub const fn new() -> Self {
        Self {
            present: Vec::new(),
            marker: PhantomData,
        }
    }

    pub fn clear_and_resize(&mut self, bound: usize) {
        self.present.clear();
        self.present.resize(bound, false);
    }

    pub fn insert(&mut self, key: K) {
        self.present[key.index()] = true;
    }

    pub fn contains(&self, key: K) -> bool {
        self.present.get(key.index()).is_some_and(|&here| here)
    }

    pub fn next_absent_from(&self, key: K) -> K {
        let mut index = key.index();
        while self.contains(K::new(index)) {
            index += 1;
        }
        K::new(index)
    }

    pub fn next_present_from(&self, key: K) -> Option<K> {
        let rest = self.present.get(key.index()..)?;
        let ahead = rest.iter().position(|&here| here)?;
        Some(K::new(key.index() + ahead))
    }
}

impl<K: EntityRef> Default for EntitySet<K> {
    fn default() -> Self {
        Self::new()
    }
}

impl<K: EntityRef> fmt::Debug for EntitySet<K> {
    fn fmt(&self, f: &mut fmt::Formatter<'_>) -> fmt::Result {
        let members = self.present.iter().enumerate();
        f.debug_set()
            .entries(members.filter(|(_, here)| **here).map(|(i, _)| i))
            .finish()
    }
}

/// A set of entities held in N words by value.
#[derive(Clone, Copy, PartialEq, Eq)]
pub struct SmallEntitySet<K, W, const N: usize> {
    words: [W; N],
    marker: PhantomData<K>,
}

impl<K: EntityRef, const N: usize> SmallEntitySet<K, u64, N> {
    pub const fn new() -> Self {
        Self::from_words([0; N])
    }

    pub const fn from_words(words: [u64; N]) -> Self {
        Self {
            words,
            marker: PhantomData,
        }
    }
}

impl<K: EntityRef, const N: usize> Default for SmallEntitySet<K, u64, N> {
    fn default() -> Self {
        Self::new()
    }
}

impl<K: EntityRef, const N: usize> BitAnd for SmallEntitySet<K, u64, N> {
    type Output = Self;

    fn bitand(self, other: Self) -> Self {
        Self::from_words(core::array::from_fn(|i| self.words[i] & other.words[i]))
    }
}

/// The members by rising number.
pub struct Members<K, const N: usize> {
    words: [u64; N],
    marker: PhantomData<K>,
}

impl<K: EntityRef, const N: usize> Iterator for Members<K, N> {
    type Item = K;

    fn next(&mut self) -> Option<K> {
        let at = self.words.iter().position(|&word| word != 0)?;
        let bit = self.words[at].trailing_zeros();
        self.words[at] &= self.words[at] - 1;
        Some(K::new(at * 64 + bit as usize))
    }
}

impl<K: EntityRef, const N: usize> IntoIterator for SmallEntitySet<K, u64, N> {
    type Item = K;
    type IntoIter = Members<K, N>;

    fn into_iter(self) -> Members<K, N> {
        Members {
            words: self.words,
            marker: PhantomData,
        }
    }
}
