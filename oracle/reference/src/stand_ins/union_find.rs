//! The job names each value's leader; nothing is united here.

use core::marker::PhantomData;
use std::cell::RefCell;

use crate::entity::EntityRef;

thread_local! {
    static LEADERS: RefCell<Vec<u32>> = const { RefCell::new(Vec::new()) };
}

/// Names the leader of every value for the runs that follow on this thread.
pub fn set_leaders(leaders: &[u32]) {
    LEADERS.with_borrow_mut(|table| {
        table.clear();
        table.extend_from_slice(leaders);
    });
}

pub struct UnionFind<T>(PhantomData<T>);

impl<T: EntityRef> UnionFind<T> {
    #[allow(clippy::new_without_default)]
    pub fn new() -> Self {
        Self(PhantomData)
    }

    pub fn find(&mut self, value: T) -> T {
        LEADERS.with_borrow(|table| T::new(table[value.index()] as usize))
    }

    /// Only the coalescing pass calls this; it never runs here.
    pub fn reset(&mut self, _count: usize) {
        unreachable!()
    }

    /// Only the coalescing pass calls this; it never runs here.
    pub fn try_union(&mut self, _a: T, _b: T, _merge: impl FnMut(T, T) -> bool) {
        unreachable!()
    }
}
