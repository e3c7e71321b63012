//! Well-formed sheets of many kinds.

mod chain;
mod crowd;
mod dense;
mod edges;
mod full;
mod general;
mod grid;
mod kept;
mod limits;
mod misled;
mod outright;
mod parallel;
mod streets;
mod ties;
mod variants;

use crate::random::Random;
use crate::Sheet;

type Family = fn(&mut Random) -> Sheet;

/// The small families with their shares.
const SMALL: [(&str, Family, usize); 13] = [
    ("streets", streets::small, 24),
    ("long line", streets::long_line, 6),
    ("general", general::general, 8),
    ("chain", chain::chain, 11),
    ("dense", dense::dense, 10),
    ("ties", ties::ties, 8),
    ("parallel", parallel::parallel, 6),
    ("kept", kept::kept, 5),
    ("crowd", crowd::crowd, 8),
    ("limits", limits::limits, 6),
    ("edges", edges::edges, 7),
    ("one road", edges::one_road_varied, 1),
    ("outright", outright::outright, 5),
];

/// A small sheet and the name of its family.
pub fn small(r: &mut Random) -> (&'static str, Sheet) {
    let shares: usize = SMALL.iter().map(|f| f.2).sum();
    let mut ticket = r.below(shares);
    for (name, family, share) in SMALL {
        if ticket < share {
            let mut sheet = family(r);
            variants::vary(r, &mut sheet);
            return (name, sheet);
        }
        ticket -= share;
    }
    unreachable!()
}

/// A sheet whose counts are near their limits.
pub fn full_size(r: &mut Random) -> (&'static str, Sheet) {
    ("full", full::full(r))
}

/// About as large as what an editor has at his desk.
pub fn desk(r: &mut Random) -> Sheet {
    streets::desk(r)
}

/// Small, but with searches that use up the heap of `roadlist`, or nearly.
pub fn misled(r: &mut Random) -> Sheet {
    misled::misled(r)
}

/// Searches over all of a full-size sheet.
pub fn heavy(r: &mut Random) -> Sheet {
    full::heavy(r)
}
