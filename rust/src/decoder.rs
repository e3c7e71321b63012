//! The call, with areas that grow to what a sheet needs.

use crate::areas::Areas;
use crate::ffi;
use crate::layout::Counts;
use crate::refusal::{Refusal, HEAP_USED_UP};
use crate::{Match, Metrics, VERSION};
use std::fmt;

/// Refusals 1 to 5 of any bytes; Ok for a well-formed sheet. [`Decoder::decode`] judges by itself.
pub fn judge(sheet: &[u8]) -> Result<(), Refusal> {
    let judgement = ffi::judge(sheet);
    Refusal::of(judgement.number, judgement.place, 0).map_or(Ok(()), Err)
}

/// The entries that each area of a call has at the least. A [`Decoder`] sees to them.
#[derive(Debug, Clone, Copy, PartialEq, Eq)]
#[non_exhaustive]
pub struct Sizes {
    /// Of the node areas, three numbers each.
    pub node: usize,
    /// Of the heap, four numbers each; more let larger searches end.
    pub heap_least: usize,
    /// Of the coverage area and the answer lists, two numbers each.
    pub list: usize,
}

impl Sizes {
    /// For a sheet of so many points and nodes; None above 16 or 1,024.
    ///
    /// ```
    /// use hemokatu::Sizes;
    ///
    /// assert_eq!(Sizes::of(2, 100).unwrap().list, 6 * 101);
    /// assert_eq!(Sizes::of(17, 100), None);
    /// ```
    pub fn of(points: usize, nodes: usize) -> Option<Sizes> {
        let ffi::Sizes {
            node,
            heap_least,
            list,
        } = ffi::sizes(points, nodes);
        (heap_least > 0).then_some(Sizes {
            node,
            heap_least,
            list,
        })
    }

    /// The bytes of all areas together, with a heap of so many slots.
    pub fn bytes(&self, heap: usize) -> usize {
        8 * (3 * self.node + 4 * heap + 4 * self.list)
    }

    /// What the header asks for; nothing where it is refused for its length or its counts.
    fn of_sheet(sheet: &[u8]) -> Sizes {
        let none = Sizes {
            node: 0,
            heap_least: 0,
            list: 0,
        };
        Counts::read(sheet)
            .and_then(|counts| Sizes::of(counts.points, counts.nodes))
            .unwrap_or(none)
    }
}

/// Decodes sheets, one after the other, in areas of its own.
///
/// The areas grow to the largest sheet seen and are kept. What an earlier sheet left in them has no part in an answer.
/// Decoders share nothing: a thread has its own.
///
/// To make one panics over a library of another major or minor version, whose calls may be lent other areas.
///
/// A search needs a heap slot for each entry it makes. One that opens no node twice makes at most one entry for each road
/// and one for the start, so the first heap has 4,097 slots; goal distances that mislead can have nodes opened again.
/// If the heap is used up, it is doubled and the sheet decoded again, up to a limit of 1,048,576 slots (32 MiB); there
/// it is [`Refusal::HeapUsedUp`]. [`Decoder::shrink`] gives back what one large sheet has made it grow by.
pub struct Decoder {
    areas: Areas,
    heap: usize,
    first_heap: usize,
    heap_limit: usize,
    metrics: Metrics,
}

const HEAP: usize = 4_097;
const HEAP_LIMIT: usize = 1 << 20;

impl Default for Decoder {
    fn default() -> Self {
        Decoder::with_heap(HEAP)
    }
}

impl Decoder {
    /// A decoder with a first heap of 4,097 slots. It allocates when it decodes.
    pub fn new() -> Decoder {
        Decoder::default()
    }

    /// A decoder whose heap has so many slots at first, 1 at the least.
    pub fn with_heap(slots: usize) -> Decoder {
        Decoder::with(slots.max(1), slots.max(HEAP_LIMIT))
    }

    /// A decoder whose heap never has more slots than this, 1 at the least.
    ///
    /// The limit bounds the time of a call too: a leg makes up to 100 searches, each of at most so many entries.
    pub fn with_heap_limit(slots: usize) -> Decoder {
        let heap_limit = slots.max(1);
        Decoder::with(HEAP.min(heap_limit), heap_limit)
    }

    fn with(heap: usize, heap_limit: usize) -> Decoder {
        let library = crate::library_version();
        assert!(
            library / 100 == VERSION / 100,
            "libhemokatu.a has version {library}, and this crate is for {VERSION}: see HEMOKATU_LIB"
        );
        Decoder {
            areas: Areas::default(),
            heap,
            first_heap: heap,
            heap_limit,
            metrics: Metrics::default(),
        }
    }

    /// Decodes one sheet, whatever its bytes are.
    ///
    /// ```
    /// let mut decoder = hemokatu::Decoder::new();
    /// let sheet = std::fs::read("../sheets/s1.sheet")?;
    ///
    /// let found = decoder.decode(&sheet)?;
    /// assert_eq!(found.roads().collect::<Vec<_>>(), [(700, 100.0)]);
    /// assert_eq!((found.start_offset_m, found.end_offset_m), (25.0, 25.0));
    ///
    /// let refusal = decoder.decode(&sheet[..55]).unwrap_err();
    /// assert_eq!(refusal.to_string(), "the sheet is under 56 bytes");
    /// # Ok::<(), Box<dyn std::error::Error>>(())
    /// ```
    pub fn decode(&mut self, sheet: &[u8]) -> Result<Match<'_>, Refusal> {
        let sizes = Sizes::of_sheet(sheet);
        let answered = loop {
            let answered = self.areas.decode(sheet, &sizes, self.heap);
            if answered.number != HEAP_USED_UP || self.heap == self.heap_limit {
                break answered;
            }
            self.heap = self.heap.saturating_mul(2).min(self.heap_limit);
            self.metrics.heap_doublings += 1;
        };
        let refusal = Refusal::of(answered.number, answered.a, answered.b);
        self.metrics.count(refusal);
        let (ids, lengths_m) = self.areas.lists(answered.count);
        match refusal {
            Some(refusal) => Err(refusal),
            None => Ok(Match {
                ids,
                lengths_m,
                length_m: answered.length_m,
                start_offset_m: answered.start_offset,
                start_fraction: answered.start_fraction,
                end_offset_m: answered.end_offset,
                end_fraction: answered.end_fraction,
                primary: answered.primary,
                coverage_m: answered.coverage,
            }),
        }
    }

    /// The slots of the heap now.
    pub fn heap(&self) -> usize {
        self.heap
    }

    /// The bytes that the areas hold now.
    pub fn bytes(&self) -> usize {
        self.areas.bytes()
    }

    /// Gives all areas back, and the heap has again as many slots as at first. The next sheet allocates what it needs.
    pub fn shrink(&mut self) {
        self.areas = Areas::default();
        self.heap = self.first_heap;
    }

    /// What this decoder has answered.
    pub fn metrics(&self) -> Metrics {
        self.metrics
    }

    /// The same, and counts from 0 again.
    pub fn take_metrics(&mut self) -> Metrics {
        std::mem::take(&mut self.metrics)
    }
}

impl fmt::Debug for Decoder {
    fn fmt(&self, f: &mut fmt::Formatter<'_>) -> fmt::Result {
        f.debug_struct("Decoder")
            .field("heap", &self.heap)
            .field("heap_limit", &self.heap_limit)
            .field("metrics", &self.metrics)
            .finish_non_exhaustive()
    }
}
