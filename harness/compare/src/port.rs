//! The port: calls of libhemokatu.a on areas of any size.

/// The crate's calls, which are made safe there.
#[allow(dead_code)]
#[path = "../../../rust/src/ffi.rs"]
mod ffi;

use ffi::{Answered, Lent};
use oracle::{Answer, Match, Outcome};
use sheets::Areas;

/// The least areas for a sheet of so many points and nodes; None above the limits of either.
pub fn least_areas(points: usize, nodes: usize) -> Option<Areas> {
    let s = ffi::sizes(points, nodes);
    let none = [s.node, s.heap_least, s.list] == [0; 3];
    (!none).then(|| Areas::of(s.node, s.heap_least, s.list, s.list))
}

/// What stands in the answer lists before a call, and behind them.
const ID: u64 = 0xA5A5_A5A5_A5A5_A5A5;
const LENGTH: f64 = -7.25e-300;

/// Entries behind a list that nobody lends.
const GUARD: usize = 8;

/// The areas. What a call leaves in the work areas stays there for the next one.
#[derive(Default)]
pub struct Port {
    floats: [Vec<f64>; 3],
    numbers: [Vec<usize>; 3],
    ids: Vec<u64>,
    lengths: Vec<f64>,
}

/// The first entries of an area, grown to them if it is shorter.
fn front<T: Clone>(area: &mut Vec<T>, size: usize, filler: T) -> &mut [T] {
    if area.len() < size {
        area.resize(size, filler);
    }
    &mut area[..size]
}

/// The numbers of a slice of two halves with so many entries each: twice the lesser, and an odd number where they differ.
fn halves(a: usize, b: usize) -> usize {
    2 * a.min(b) + usize::from(a != b)
}

impl Port {
    pub fn new() -> Port {
        Port::default()
    }

    /// Refusals 1 to 5 of any bytes, by number and A.
    pub fn judge(&self, sheet: &[u8]) -> Option<(usize, usize)> {
        let j = ffi::judge(sheet);
        (j.number != 0).then_some((j.number, j.place))
    }

    /// One call. An error says what is wrong with the lists.
    pub fn call(&mut self, sheet: &[u8], areas: &Areas) -> Result<Outcome, String> {
        let size = areas.0;
        self.ids = vec![ID; size[9] + GUARD];
        self.lengths = vec![LENGTH; size[10] + GUARD];
        let answered = self.decode(sheet, &size);
        let outcome = self.outcome(&answered, &size)?;
        if outcome.untouched() {
            self.rest_is(0, ID, LENGTH, &size)?;
        } else {
            self.rest_is(outcome.ids.len(), 0, 0.0, &size)?;
        }
        Ok(outcome)
    }

    /// The call alone: the number of its answer.
    pub fn number(&mut self, sheet: &[u8], areas: &Areas) -> usize {
        self.decode(sheet, &areas.0).number
    }

    fn decode(&mut self, sheet: &[u8], size: &[usize; 11]) -> Answered {
        let [labels, entries, coverage] = &mut self.floats;
        let [came_from, links, covered] = &mut self.numbers;
        let lent = Lent {
            labels: front(labels, halves(size[0], size[1]), f64::NAN),
            came_from: front(came_from, size[2], 1),
            entries: front(entries, halves(size[3], size[4]), f64::NEG_INFINITY),
            links: front(links, halves(size[5], size[6]), usize::MAX),
            covered: front(covered, size[7], 0),
            coverage: front(coverage, size[8], 1e300),
            ids: front(&mut self.ids, size[9], ID),
            lengths: front(&mut self.lengths, size[10], LENGTH),
        };
        ffi::decode(sheet, lent)
    }

    fn outcome(&self, a: &Answered, size: &[usize; 11]) -> Result<Outcome, String> {
        let floats = [
            a.length_m,
            a.start_offset,
            a.start_fraction,
            a.end_offset,
            a.end_fraction,
            a.coverage,
        ];
        if a.number != 0 {
            let silent = floats.iter().all(|f| f.to_bits() == 0) && a.count == 0 && a.primary == 0;
            return match silent {
                true => Ok(Outcome::refused(a.number, a.a, a.b)),
                false => Err(format!("refusal {} carries more than its places", a.number)),
            };
        }
        if a.count > size[9].min(size[10]) || (a.a, a.b) != (0, 0) {
            return Err(format!(
                "a match of {} roads with places {} {}",
                a.count, a.a, a.b
            ));
        }
        let lengths = &self.lengths[..a.count];
        Ok(Outcome {
            answer: Answer::Matched(Match {
                count: a.count,
                length: floats[0].to_bits(),
                start_offset: floats[1].to_bits(),
                start_fraction: floats[2].to_bits(),
                end_offset: floats[3].to_bits(),
                end_fraction: floats[4].to_bits(),
                primary: a.primary,
                coverage: floats[5].to_bits(),
            }),
            ids: self.ids[..a.count].to_vec(),
            lengths: lengths.iter().map(|l| l.to_bits()).collect(),
        })
    }

    /// Whether this id and length stand in the lists from an entry on, and the old ones behind the lists.
    fn rest_is(&self, from: usize, id: u64, length: f64, size: &[usize; 11]) -> Result<(), String> {
        let same = |a: f64, b: f64| a.to_bits() == b.to_bits();
        let (ids, behind) = self.ids.split_at(size[9]);
        let (lengths, behind_lengths) = self.lengths.split_at(size[10]);
        let ids_good = ids[from..].iter().all(|x| *x == id) && behind.iter().all(|x| *x == ID);
        let lengths_good = lengths[from..].iter().all(|x| same(*x, length))
            && behind_lengths.iter().all(|x| same(*x, LENGTH));
        match (ids_good, lengths_good) {
            (true, true) => Ok(()),
            (false, _) => Err(format!("ids from entry {from}: {ids:x?}")),
            _ => Err(format!("lengths from entry {from}: {lengths:?}")),
        }
    }
}

/// What the port says of a path.
#[derive(Debug, PartialEq, Eq)]
pub struct Charged {
    pub number: usize,
    pub total: u64,
    pub amounts: [u64; 8],
}

pub fn charge(cents: [u32; 8], classes: &[u8], lengths: &[f64]) -> Charged {
    let said = ffi::charge(ffi::Tariff { cents }, classes, lengths);
    Charged {
        number: said.number,
        total: said.total,
        amounts: said.amounts,
    }
}
