//! The sheets of each set, from seeds.

use sheets::{families, Random, Sheet};

pub struct Set {
    pub name: &'static str,
    count: usize,
    make: fn(&mut Random) -> Sheet,
    /// Sheets that end in a refusal, or in a match.
    refused: bool,
}

pub const SETS: &[Set] = &[
    set("small", 400, small, false),
    set("desk", 200, families::desk, false),
    set("full", 60, full, false),
    set("heavy", 12, families::heavy, false),
    set("refused", 200, any, true),
];

const fn set(
    name: &'static str,
    count: usize,
    make: fn(&mut Random) -> Sheet,
    refused: bool,
) -> Set {
    Set {
        name,
        count,
        make,
        refused,
    }
}

fn small(r: &mut Random) -> Sheet {
    families::small(r).1
}

fn full(r: &mut Random) -> Sheet {
    families::full_size(r).1
}

fn any(r: &mut Random) -> Sheet {
    match r.below(3) {
        0 => families::desk(r),
        _ => small(r),
    }
}

impl Set {
    /// The first sheets, by seed, that end as the set says.
    pub fn sheets(&self, count: Option<usize>) -> Vec<Sheet> {
        let sheet = |seed: u64| (self.make)(&mut Random::new(seed));
        let fits = |s: &Sheet| {
            let number = oracle::Decoded::of(s).outcome.answer.number();
            (number != 0) == self.refused && s.nodes > 0
        };
        (1..)
            .map(sheet)
            .filter(fits)
            .take(count.unwrap_or(self.count))
            .collect()
    }
}
