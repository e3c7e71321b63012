//! What a match says.

use crate::Refusal;
use std::fmt::Write;

/// The matched roads and what is said of them. It borrows its lists from the [`Decoder`](crate::Decoder) that made it.
///
/// No number is a NaN or -0. An end fraction can be infinite, where the end road has length 0.
#[derive(Debug, Clone, Copy, PartialEq)]
#[non_exhaustive]
pub struct Match<'a> {
    /// The ids of the path's roads, in travel order.
    pub ids: &'a [u64],
    /// Their lengths in metres.
    pub lengths_m: &'a [f64],
    /// The sum of the legs in metres.
    pub length_m: f64,
    /// From the start of the path to the first point, in metres.
    pub start_offset_m: f64,
    /// The same over the first road's length.
    pub start_fraction: f64,
    /// From the last point to the end of the path, in metres.
    pub end_offset_m: f64,
    /// The same over the last road's length.
    pub end_fraction: f64,
    /// The id of the primary road, which has the greatest coverage.
    pub primary: u64,
    /// The metres covered of it.
    pub coverage_m: f64,
}

impl<'a> Match<'a> {
    /// Id and length in metres of each road, in travel order.
    pub fn roads(&self) -> impl Iterator<Item = (u64, f64)> + 'a {
        self.ids.iter().copied().zip(self.lengths_m.iter().copied())
    }
}

/// An answer as the list program prints it: a line for each part, an f64 as its bits.
///
/// ```
/// let sheet = std::fs::read("../sheets/s1.sheet")?;
/// let text = hemokatu::list_text(&hemokatu::Decoder::new().decode(&sheet));
/// assert_eq!(text, std::fs::read_to_string("../sheets/s1.answer")?);
/// # Ok::<(), std::io::Error>(())
/// ```
pub fn list_text(answer: &Result<Match<'_>, Refusal>) -> String {
    let mut text = String::new();
    let written = match answer {
        Ok(found) => write_match(&mut text, found),
        Err(refusal) => {
            let (a, b) = refusal.places();
            writeln!(text, "refused {} {a} {b}", refusal.number())
        }
    };
    written.expect("a string takes every text");
    text
}

fn write_match(text: &mut String, found: &Match<'_>) -> std::fmt::Result {
    let bits = |value: f64| format!("{:016x}", value.to_bits());
    writeln!(text, "path {}", found.ids.len())?;
    for (id, length_m) in found.roads() {
        writeln!(text, "road {id} {}", bits(length_m))?;
    }
    writeln!(text, "length {}", bits(found.length_m))?;
    for (end, offset_m, fraction) in [
        ("start", found.start_offset_m, found.start_fraction),
        ("end", found.end_offset_m, found.end_fraction),
    ] {
        writeln!(text, "{end} {} {}", bits(offset_m), bits(fraction))?;
    }
    writeln!(text, "primary {} {}", found.primary, bits(found.coverage_m))
}
