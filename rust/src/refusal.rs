//! Why nothing is matched.

use crate::Kind;
use std::fmt;

/// Why a sheet has no match, with its place.
///
/// Points, legs and roads are counted from 0, as on the sheet; leg 2 runs from point 2 to point 3.
///
/// ```
/// use hemokatu::Refusal;
///
/// let refusal = Refusal::NoPath { from: 2, to: 3 };
/// assert_eq!(refusal.number(), 10);
/// assert_eq!(refusal.places(), (2, 3));
/// assert_eq!(refusal.to_string(), "no path from point 2 to point 3");
/// ```
#[derive(Debug, Clone, Copy, PartialEq, Eq, Hash)]
#[non_exhaustive]
pub enum Refusal {
    /// 1: under 56 bytes.
    Short,
    /// 2: a count above its limit, or a point along line without two points.
    Counts,
    /// 3: offsets, total or final zero of the header wrong.
    Layout,
    /// 4: a value out of range, a number not below its count, or a spare byte that is not 0. [`field_at`](crate::field_at) names the field.
    Value {
        /// Where the field, or the spare byte, begins in the sheet.
        offset: usize,
    },
    /// 5: start positions, lists, order of rows, row sum or goal rows broken.
    Rules,
    /// 6: an area or an answer list too small. A [`Decoder`](crate::Decoder) never gives it.
    Room,
    /// 7: a kind of reference that is not decoded.
    Kind {
        /// The kind.
        kind: Kind,
    },
    /// 8: a line without points.
    NoPoints,
    /// 9: no road near enough.
    NoCandidate {
        /// The point.
        point: usize,
    },
    /// 10: no path.
    NoPath {
        /// From this point.
        from: usize,
        /// To this one.
        to: usize,
    },
    /// 11: a search makes more entries than the heap's limit.
    HeapUsedUp {
        /// The leg.
        leg: usize,
    },
}

pub(crate) const HEAP_USED_UP: usize = 11;

impl Refusal {
    /// The refusal of a number and its two places; None for 0.
    pub(crate) fn of(number: usize, a: usize, b: usize) -> Option<Refusal> {
        Some(match number {
            0 => return None,
            1 => Refusal::Short,
            2 => Refusal::Counts,
            3 => Refusal::Layout,
            4 => Refusal::Value { offset: a },
            5 => Refusal::Rules,
            6 => Refusal::Room,
            7 => Refusal::Kind {
                kind: Kind::of(a).expect("a judged sheet has a kind from 1 to 9"),
            },
            8 => Refusal::NoPoints,
            9 => Refusal::NoCandidate { point: a },
            10 => Refusal::NoPath { from: a, to: b },
            HEAP_USED_UP => Refusal::HeapUsedUp { leg: a },
            _ => unreachable!("a refusal has a number from 1 to 11"),
        })
    }

    /// The number, from 1 to 11.
    pub fn number(&self) -> usize {
        match self {
            Refusal::Short => 1,
            Refusal::Counts => 2,
            Refusal::Layout => 3,
            Refusal::Value { .. } => 4,
            Refusal::Rules => 5,
            Refusal::Room => 6,
            Refusal::Kind { .. } => 7,
            Refusal::NoPoints => 8,
            Refusal::NoCandidate { .. } => 9,
            Refusal::NoPath { .. } => 10,
            Refusal::HeapUsedUp { .. } => HEAP_USED_UP,
        }
    }

    /// The places A and B, 0 where there is none.
    pub fn places(&self) -> (usize, usize) {
        match *self {
            Refusal::Value { offset } => (offset, 0),
            Refusal::Kind { kind } => (kind as usize, 0),
            Refusal::NoCandidate { point } => (point, 0),
            Refusal::NoPath { from, to } => (from, to),
            Refusal::HeapUsedUp { leg } => (leg, 0),
            _ => (0, 0),
        }
    }
}

/// In plain words. Points, legs and bytes are counted from 0, as on the sheet.
impl fmt::Display for Refusal {
    fn fmt(&self, f: &mut fmt::Formatter<'_>) -> fmt::Result {
        match self {
            Refusal::Short => f.write_str("the sheet is under 56 bytes"),
            Refusal::Counts => {
                f.write_str("a count is above its limit, or a point along line has not two points")
            }
            Refusal::Layout => {
                f.write_str("an offset, the total or the final zero of the header is wrong")
            }
            Refusal::Value { offset } => write!(f, "the value at byte {offset} is out of range"),
            Refusal::Rules => {
                f.write_str("the lists, the order or number of rows, or the goal rows are broken")
            }
            Refusal::Room => f.write_str("an area or an answer list is too small"),
            Refusal::Kind { kind } => write!(f, "a reference of kind {kind} is not decoded"),
            Refusal::NoPoints => f.write_str("the line has no points"),
            Refusal::NoCandidate { point } => write!(f, "no candidate for point {point}"),
            Refusal::NoPath { from, to } => write!(f, "no path from point {from} to point {to}"),
            Refusal::HeapUsedUp { leg } => write!(f, "a search of leg {leg} used up the heap"),
        }
    }
}

impl std::error::Error for Refusal {}
