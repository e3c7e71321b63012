//! The areas that a decoder lends.

use crate::ffi::{self, Answered, Lent};
use crate::Sizes;

/// The areas grow to the largest sheet and are kept.
#[derive(Default)]
pub struct Areas {
    labels: Vec<f64>,
    came_from: Vec<usize>,
    entries: Vec<f64>,
    links: Vec<usize>,
    covered: Vec<usize>,
    coverage: Vec<f64>,
    ids: Vec<u64>,
    lengths: Vec<f64>,
}

impl Areas {
    /// One call. It is lent what is needed and no more, since it zeroes the answer lists to their end.
    pub fn decode(&mut self, sheet: &[u8], sizes: &Sizes, heap: usize) -> Answered {
        let lent = Lent {
            labels: front(&mut self.labels, 2 * sizes.node),
            came_from: front(&mut self.came_from, sizes.node),
            entries: front(&mut self.entries, 2 * heap),
            links: front(&mut self.links, 2 * heap),
            covered: front(&mut self.covered, sizes.list),
            coverage: front(&mut self.coverage, sizes.list),
            ids: front(&mut self.ids, sizes.list),
            lengths: front(&mut self.lengths, sizes.list),
        };
        ffi::decode(sheet, lent)
    }

    /// The first entries of the answer lists: ids and lengths.
    pub fn lists(&self, count: usize) -> (&[u64], &[f64]) {
        (&self.ids[..count], &self.lengths[..count])
    }

    /// The bytes that all areas hold; every entry has 8.
    pub fn bytes(&self) -> usize {
        let reals = [&self.labels, &self.entries, &self.coverage, &self.lengths];
        let numbers = [&self.came_from, &self.links, &self.covered];
        let reals = reals.into_iter().map(Vec::capacity);
        let numbers = numbers.into_iter().map(Vec::capacity);
        8 * (reals.chain(numbers).sum::<usize>() + self.ids.capacity())
    }
}

/// The first entries of an area, grown to them if it is shorter.
fn front<T: Clone + Default>(area: &mut Vec<T>, size: usize) -> &mut [T] {
    if area.len() < size {
        area.reserve_exact(size - area.len());
        area.resize(size, T::default());
    }
    &mut area[..size]
}
