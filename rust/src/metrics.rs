//! What a decoder has done.

use crate::Refusal;
use std::ops::AddAssign;

const REFUSALS: usize = 11;

/// Counts of what a [`Decoder`](crate::Decoder) has answered. Those of several threads are added up by `+=`.
///
/// ```
/// use hemokatu::{Decoder, Metrics};
///
/// let mut decoder = Decoder::new();
/// for name in ["s1", "s2", "s3"] {
///     let _ = decoder.decode(&std::fs::read(format!("../sheets/{name}.sheet"))?);
/// }
/// let mut all = Metrics::default();
/// all += decoder.take_metrics();
/// assert_eq!((all.calls, all.matches, all.refused(10)), (3, 1, 2));
/// # Ok::<(), std::io::Error>(())
/// ```
#[derive(Debug, Clone, Copy, PartialEq, Eq, Default)]
#[non_exhaustive]
pub struct Metrics {
    /// Sheets answered.
    pub calls: u64,
    /// Sheets with a match.
    pub matches: u64,
    /// How often the heap was doubled, and a sheet decoded again for it.
    pub heap_doublings: u64,
    refusals: [u64; REFUSALS],
}

impl Metrics {
    /// Sheets refused with this number; 0 for numbers that no refusal has.
    pub fn refused(&self, number: usize) -> u64 {
        let index = number.wrapping_sub(1);
        self.refusals.get(index).copied().unwrap_or(0)
    }

    /// Numbers of refusals, and how often each was given, by rising number, also of those that never were.
    pub fn refusals(&self) -> impl Iterator<Item = (usize, u64)> + '_ {
        (1..).zip(self.refusals.iter().copied())
    }

    pub(crate) fn count(&mut self, refusal: Option<Refusal>) {
        self.calls += 1;
        match refusal {
            Some(refusal) => self.refusals[refusal.number() - 1] += 1,
            None => self.matches += 1,
        }
    }
}

impl AddAssign for Metrics {
    fn add_assign(&mut self, other: Metrics) {
        self.calls += other.calls;
        self.matches += other.matches;
        self.heap_doublings += other.heap_doublings;
        for (sum, more) in self.refusals.iter_mut().zip(other.refusals) {
            *sum += more;
        }
    }
}
