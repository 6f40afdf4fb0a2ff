//! Iterators over entity maps.

use core::marker::PhantomData;
use core::ops::Range;
use core::slice;
use std::vec;

use super::EntityRef;

/// Entities by rising number.
#[derive(Clone)]
pub struct Keys<K> {
    left: Range<usize>,
    marker: PhantomData<K>,
}

impl<K: EntityRef> Keys<K> {
    pub fn with_len(len: usize) -> Self {
        Self::between(0, len)
    }

    pub fn between(from: usize, to: usize) -> Self {
        Self {
            left: from..to,
            marker: PhantomData,
        }
    }
}

impl<K: EntityRef> Iterator for Keys<K> {
    type Item = K;

    fn next(&mut self) -> Option<K> {
        self.left.next().map(K::new)
    }

    fn size_hint(&self) -> (usize, Option<usize>) {
        self.left.size_hint()
    }
}

impl<K: EntityRef> DoubleEndedIterator for Keys<K> {
    fn next_back(&mut self) -> Option<K> {
        self.left.next_back().map(K::new)
    }
}

impl<K: EntityRef> ExactSizeIterator for Keys<K> {}

macro_rules! keyed {
    ($name:ident<$($life:lifetime,)? K, V>, $inner:ty, $item:ty) => {
        pub struct $name<$($life,)? K, V> {
            inner: core::iter::Enumerate<$inner>,
            marker: PhantomData<K>,
        }

        impl<$($life,)? K: EntityRef, V> $name<$($life,)? K, V> {
            pub fn new(inner: $inner) -> Self {
                Self {
                    inner: inner.enumerate(),
                    marker: PhantomData,
                }
            }
        }

        impl<$($life,)? K: EntityRef, V> Iterator for $name<$($life,)? K, V> {
            type Item = (K, $item);

            fn next(&mut self) -> Option<Self::Item> {
                self.inner.next().map(|(i, item)| (K::new(i), item))
            }
        }
    };
}

keyed!(Iter<'a, K, V>, slice::Iter<'a, V>, &'a V);
keyed!(IterMut<'a, K, V>, slice::IterMut<'a, V>, &'a mut V);
keyed!(IntoIter<K, V>, vec::IntoIter<V>, V);
