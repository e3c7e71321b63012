//! What was compared: how many of each answer.

use oracle::{Answer, Outcome};
use std::collections::BTreeMap;
use std::fmt::{Display, Formatter, Result};

#[derive(Default)]
pub struct Tally {
    pub compared: usize,
    pub differ: usize,
    by_number: [usize; 12],
    several_roads: usize,
    several_legs: usize,
    bytes: usize,
    /// Sheets of each family, and how many of them are matched.
    families: BTreeMap<&'static str, (usize, usize)>,
}

impl Tally {
    pub fn add(&mut self, family: &'static str, expected: &Outcome, bytes: &[u8]) {
        self.compared += 1;
        self.bytes += bytes.len();
        self.by_number[expected.answer.number()] += 1;
        let of_family = self.families.entry(family).or_default();
        of_family.0 += 1;
        of_family.1 += (expected.answer.number() == 0) as usize;
        if let Answer::Matched(m) = expected.answer {
            self.several_roads += (m.count > 1) as usize;
            self.several_legs += (bytes[4] > 2) as usize;
        }
    }
}

impl Display for Tally {
    fn fmt(&self, f: &mut Formatter) -> Result {
        write!(f, "{} compared, {} differ", self.compared, self.differ)?;
        let [matched, refused @ ..] = &self.by_number;
        write!(
            f,
            "\n  {matched} matched ({} with several roads, {} with several legs)",
            self.several_roads, self.several_legs
        )?;
        for (i, count) in refused.iter().enumerate().filter(|(_, c)| **c > 0) {
            write!(f, ", {count} refused {}", i + 1)?;
        }
        write!(
            f,
            "\n  {} bytes a sheet; matched",
            self.bytes / self.compared.max(1)
        )?;
        for (family, (all, matched)) in &self.families {
            write!(f, ", {matched} of {all} {family}")?;
        }
        Ok(())
    }
}
