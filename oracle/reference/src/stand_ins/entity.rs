//! Entity references, their maps, ranges and sets.

#[path = "iter.rs"]
pub mod iter;
#[path = "packed_option.rs"]
pub mod packed_option;
#[path = "primary_map.rs"]
mod primary_map;
#[path = "sets.rs"]
mod sets;

pub use packed_option::{PackedOption, ReservedValue};
pub use primary_map::PrimaryMap;
pub use sets::{EntitySet, SmallEntitySet};

/// A number of one kind of thing.
pub trait EntityRef: Copy + Eq {
    fn new(index: usize) -> Self;
    fn index(self) -> usize;
}

/// The entities from `from` up to, not including, `to`.
#[derive(Clone, Copy, Debug, PartialEq, Eq, Hash)]
pub struct EntityRange<K> {
    pub from: K,
    pub to: K,
}

impl<K: EntityRef> EntityRange<K> {
    pub fn new(from: K, to: K) -> Self {
        Self { from, to }
    }

    pub fn is_empty(self) -> bool {
        self.from.index() >= self.to.index()
    }

    pub fn last(self) -> K {
        K::new(self.to.index() - 1)
    }

    pub fn iter(self) -> iter::Keys<K> {
        iter::Keys::between(self.from.index(), self.to.index())
    }
}
