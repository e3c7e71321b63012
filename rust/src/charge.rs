//! What a path costs.

use crate::ffi;
use std::fmt;

/// Cents for each started metre of a road, by its class from 0 to 7; each up to 1,000,000.
///
/// A road is charged on its whole length, rounded up to the metre.
///
/// ```
/// use hemokatu::{RoadOnPath, Tariff};
///
/// let tariff = Tariff { cents: [90, 80, 70, 60, 50, 40, 30, 20] };
/// let path = [(3, 100.0), (3, 12.25), (7, 0.5)].map(|(frc, length_m)| RoadOnPath { frc, length_m });
/// let charge = tariff.charge(&path)?;
/// assert_eq!(charge.total, (100 + 13) * 60 + 20);
/// assert_eq!(charge.amounts, [0, 0, 0, 6780, 0, 0, 0, 20]);
/// # Ok::<(), hemokatu::ChargeRefusal>(())
/// ```
#[derive(Debug, Clone, Copy, PartialEq, Eq, Hash, Default)]
pub struct Tariff {
    /// The price of each class.
    pub cents: [u32; 8],
}

/// A road of a path to be charged.
#[derive(Debug, Clone, Copy, PartialEq)]
pub struct RoadOnPath {
    /// Road class, 0 to 7.
    pub frc: u8,
    /// Its length in metres: sign bit clear, at most 10,000,000.
    pub length_m: f64,
}

/// What a path costs, in cents.
#[derive(Debug, Clone, Copy, PartialEq, Eq, Hash)]
#[non_exhaustive]
pub struct Charge {
    /// The whole path.
    pub total: u64,
    /// The roads of each class; they add up to the total.
    pub amounts: [u64; 8],
}

/// Why a path is not charged.
#[derive(Debug, Clone, Copy, PartialEq, Eq, Hash)]
#[non_exhaustive]
pub enum ChargeRefusal {
    /// 2: more than 300,000 roads, or lists of unequal length.
    Counts,
    /// 4: a price, class or length out of range.
    Value,
}

impl Tariff {
    /// What a path costs, in any order of its roads.
    pub fn charge(&self, path: &[RoadOnPath]) -> Result<Charge, ChargeRefusal> {
        let classes: Vec<u8> = path.iter().map(|road| road.frc).collect();
        let lengths_m: Vec<f64> = path.iter().map(|road| road.length_m).collect();
        self.charge_lists(&classes, &lengths_m)
    }

    /// The same, of roads as two lists: nothing is copied.
    pub fn charge_lists(&self, classes: &[u8], lengths_m: &[f64]) -> Result<Charge, ChargeRefusal> {
        let tariff = ffi::Tariff { cents: self.cents };
        let said = ffi::charge(tariff, classes, lengths_m);
        match said.number {
            0 => Ok(Charge {
                total: said.total,
                amounts: said.amounts,
            }),
            2 => Err(ChargeRefusal::Counts),
            4 => Err(ChargeRefusal::Value),
            _ => unreachable!("a charge is refused by 2 or 4"),
        }
    }
}

impl ChargeRefusal {
    /// The number, 2 or 4. It has no places.
    pub fn number(&self) -> usize {
        match self {
            ChargeRefusal::Counts => 2,
            ChargeRefusal::Value => 4,
        }
    }
}

impl fmt::Display for ChargeRefusal {
    fn fmt(&self, f: &mut fmt::Formatter<'_>) -> fmt::Result {
        f.write_str(match self {
            ChargeRefusal::Counts => {
                "the path has more than 300,000 roads, or not as many lengths as classes"
            }
            ChargeRefusal::Value => "a price, class or length is out of range",
        })
    }
}

impl std::error::Error for ChargeRefusal {}
