//! `std` as decoder.rs sees it: the same items, but for a BinaryHeap that counts the entries of each search.

use std::cell::{Cell, RefCell};

pub mod cmp {
    pub use std::cmp::Ordering;
}

pub mod collections {
    pub use crate::BinaryHeap;
    pub use std::collections::HashMap;
}

/// A search: the leg it belongs to, and the entries it made, the start included.
#[derive(Debug, Clone, Copy, PartialEq, Eq)]
pub struct Search {
    pub leg: usize,
    pub entries: usize,
}

thread_local! {
    static LEG: Cell<usize> = const { Cell::new(0) };
    static SEARCHES: RefCell<Vec<Search>> = const { RefCell::new(Vec::new()) };
}

/// The searches that follow belong to this leg.
pub fn enter_leg(leg: usize) {
    LEG.with(|l| l.set(leg));
}

/// All searches since the last call of this function, in their order.
pub fn take_searches() -> Vec<Search> {
    SEARCHES.with(|s| s.take())
}

/// The standard heap. A search makes one heap, so a heap that is dropped is a search that ended.
pub struct BinaryHeap<T> {
    heap: std::collections::BinaryHeap<T>,
    entries: usize,
}

impl<T: Ord> BinaryHeap<T> {
    #[allow(clippy::new_without_default)]
    pub fn new() -> Self {
        BinaryHeap {
            heap: std::collections::BinaryHeap::new(),
            entries: 0,
        }
    }

    pub fn push(&mut self, entry: T) {
        self.entries += 1;
        self.heap.push(entry);
    }

    pub fn pop(&mut self) -> Option<T> {
        self.heap.pop()
    }
}

impl<T> Drop for BinaryHeap<T> {
    fn drop(&mut self) {
        let leg = LEG.with(|l| l.get());
        let entries = self.entries;
        SEARCHES.with(|s| s.borrow_mut().push(Search { leg, entries }));
    }
}
