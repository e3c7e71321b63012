//! A case by its kind and seed: bytes, areas, and what the oracle answers.

use crate::{call::call, judge, Decoded, Outcome};
use sheets::{areas::DRAWN, damage, families, Areas, Random, Sheet};

#[derive(Debug, Clone, Copy, PartialEq, Eq)]
pub enum Kind {
    WellFormed,
    Damaged,
    Full,
}

impl Kind {
    pub fn named(name: &str) -> Option<Kind> {
        match name {
            "well-formed" => Some(Kind::WellFormed),
            "damaged" => Some(Kind::Damaged),
            "full" => Some(Kind::Full),
            _ => None,
        }
    }
}

pub struct Case {
    pub family: &'static str,
    pub bytes: Vec<u8>,
    pub areas: Areas,
    pub expected: Outcome,
}

/// The case of a seed. Different kinds of a seed have nothing in common.
pub fn case(kind: Kind, seed: u64) -> Case {
    let r = &mut Random::new(seed.wrapping_mul(4).wrapping_add(kind as u64));
    let (family, sheet) = match kind {
        Kind::Full => families::full_size(r),
        _ => families::small(r),
    };
    if kind == Kind::Damaged {
        let mut areas = slack(r, Areas::least(sheet.points.len(), sheet.nodes, 64));
        let bytes = damage::damage(r, &sheet, &mut areas);
        let expected = call(&bytes, &areas);
        return Case {
            family,
            bytes,
            areas,
            expected,
        };
    }
    let bytes = sheet.bytes();
    let decoded = Decoded::of(&Sheet::read(&bytes));
    let heap = heap(r, decoded.most_entries());
    let areas = slack(r, Areas::least(sheet.points.len(), sheet.nodes, heap));
    let expected = match judge::refusal(&bytes, &areas) {
        Some((number, a)) => Outcome::refused(number, a, 0),
        None => decoded.with_heap(areas.heap()),
    };
    Case {
        family,
        bytes,
        areas,
        expected,
    }
}

/// Roomy, just large enough, one slot short, or any smaller one.
fn heap(r: &mut Random, most: usize) -> usize {
    match r.below(20) {
        0..=10 => most + 1 + r.below(40),
        11..=14 => most.max(1),
        15..=17 => most.saturating_sub(1).max(1),
        _ => 1 + r.below(most + 1),
    }
}

/// Half of the areas somewhat larger; of the heap's four parts one stays, which is the heap's size.
fn slack(r: &mut Random, mut areas: Areas) -> Areas {
    let kept = Some(3 + r.below(4));
    for area in DRAWN.into_iter().filter(|area| *area != kept) {
        let more = if r.chance(50) { r.below(6) } else { 0 };
        if let Some(i) = area {
            areas.0[i] += more;
        }
    }
    areas
}
