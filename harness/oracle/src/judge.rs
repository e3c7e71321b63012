//! Refusals 1 to 6, read from the scope: "The sheet" and "When nothing is matched".

mod order;

pub(crate) use order::broken_rule;
use sheets::Areas;

/// "Every f64 has its sign bit clear and is at most 10,000,000."
const MOST: f64 = 10_000_000.0;

/// The first header words and where the sections begin.
pub(crate) struct Head {
    pub kind: usize,
    pub points: usize,
    pub nodes: usize,
    pub roads: usize,
    pub rows: usize,
    pub goals: usize,
}

/// The greatest number of points, nodes, roads, rows and goal rows.
pub(crate) const LIMITS: [usize; 5] = [16, 1024, 4096, 1024, 1024];

impl Head {
    /// Of 56 bytes or more.
    pub fn of(bytes: &[u8]) -> Head {
        let [kind, points, nodes, roads, rows, goals] = std::array::from_fn(|i| word(bytes, 4 * i));
        Head {
            kind,
            points,
            nodes,
            roads,
            rows,
            goals,
        }
    }

    /// Those that have limits.
    pub fn counts(&self) -> [usize; 5] {
        [self.points, self.nodes, self.roads, self.rows, self.goals]
    }

    /// The offsets of settings, points, roads, lists, rows and distances, and the total.
    pub fn sections(&self) -> [usize; 7] {
        let settings = 56;
        let points = settings + 112;
        let roads = points + 24 * self.points;
        let lists = roads + 32 * self.roads;
        let rows = lists + 4 * (self.nodes + 1) + 4 * self.roads;
        let distances = rows + 40 * self.rows;
        let total = distances + 2 * 8 * self.nodes + self.goals * (4 + 4 + 8 * self.nodes);
        [settings, points, roads, lists, rows, distances, total]
    }
}

pub(crate) fn word(bytes: &[u8], at: usize) -> usize {
    u32::from_le_bytes(bytes[at..at + 4].try_into().unwrap()) as usize
}

/// Number and A of the first of the refusals 1 to 6 that holds.
pub fn refusal(bytes: &[u8], areas: &Areas) -> Option<(usize, usize)> {
    if bytes.len() < 56 {
        return Some((1, 0));
    }
    let head = Head::of(bytes);
    if above_a_limit(&head) {
        return Some((2, 0));
    }
    if !wrong_layout(bytes, &head).is_empty() {
        return Some((3, 0));
    }
    if let Err(place) = Walk::over(bytes, &head) {
        return Some((4, place));
    }
    if broken_rule(bytes, &head).is_some() {
        return Some((5, 0));
    }
    if too_small(&head, areas) {
        return Some((6, 0));
    }
    None
}

fn above_a_limit(h: &Head) -> bool {
    let above = |(count, limit): (usize, usize)| count > limit;
    h.counts().into_iter().zip(LIMITS).any(above) || (h.kind == 2 && h.points != 2)
}

/// What is wrong of offsets, total, length and final zero, in words.
pub(crate) fn wrong_layout(bytes: &[u8], h: &Head) -> Vec<&'static str> {
    const NAMES: [&str; 7] = [
        "settings",
        "points",
        "roads",
        "lists",
        "rows",
        "distances",
        "total",
    ];
    let sections = h.sections();
    let mut wrong: Vec<&str> = (0..7)
        .filter(|i| word(bytes, 24 + 4 * i) != sections[*i])
        .map(|i| NAMES[i])
        .collect();
    if sections[6] != bytes.len() {
        wrong.push("length");
    }
    if word(bytes, 52) != 0 {
        wrong.push("final zero");
    }
    wrong
}

fn too_small(h: &Head, areas: &Areas) -> bool {
    areas.nodes() < h.nodes || areas.heap() < 1 || areas.lists() < (h.points + 4) * (h.nodes + 1)
}

/// Reads a sheet field by field. An error is the offset of the first field out of range, or of the first spare byte that is not zero.
struct Walk<'a> {
    bytes: &'a [u8],
    at: usize,
}

type Passed = Result<(), usize>;

impl Walk<'_> {
    fn over(bytes: &[u8], h: &Head) -> Passed {
        if h.kind < 1 || h.kind > 9 {
            return Err(0);
        }
        let mut walk = Walk { bytes, at: 56 };
        walk.settings()?;
        (0..h.points).try_for_each(|_| walk.point())?;
        (0..h.roads).try_for_each(|_| walk.road(h))?;
        // Start positions are judged by refusal 5.
        walk.at += 4 * (h.nodes + 1);
        (0..h.roads).try_for_each(|_| walk.number_below(h.roads))?;
        (0..h.rows).try_for_each(|_| walk.row(h))?;
        walk.metres(2 * h.nodes)?;
        (0..h.goals).try_for_each(|_| walk.goal(h))
    }

    fn settings(&mut self) -> Passed {
        self.metres(13)?;
        self.byte(|_| true)?;
        self.byte(|snap| snap <= 1)?;
        self.half(64)?;
        self.spare(4)
    }

    fn point(&mut self) -> Passed {
        let without_path = self.bytes[self.at + 12] == 255;
        self.float(if without_path { 0.0 } else { MOST })?;
        self.half(360)?;
        self.byte(|frc| frc <= 7)?;
        self.byte(|fow| fow <= 7)?;
        self.byte(|limit| limit <= 7 || limit == 255)?;
        self.spare(3)?;
        self.number_below(65)?;
        self.spare(4)
    }

    fn road(&mut self, h: &Head) -> Passed {
        self.at += 8;
        self.float(MOST)?;
        self.number_below(h.nodes)?;
        self.number_below(h.nodes)?;
        self.byte(|frc| frc <= 7)?;
        self.byte(|fow| fow <= 7)?;
        self.byte(|access| access <= 1)?;
        self.spare(5)
    }

    fn row(&mut self, h: &Head) -> Passed {
        self.number_below(h.roads)?;
        self.spare(4)?;
        self.float(MOST)?;
        self.float(360.0)?;
        self.metres(2)
    }

    fn goal(&mut self, h: &Head) -> Passed {
        self.number_below(h.nodes)?;
        self.spare(4)?;
        self.metres(h.nodes)
    }

    fn pass(&mut self, good: bool, size: usize) -> Passed {
        if !good {
            return Err(self.at);
        }
        self.at += size;
        Ok(())
    }

    fn metres(&mut self, count: usize) -> Passed {
        (0..count).try_for_each(|_| self.float(MOST))
    }

    fn float(&mut self, greatest: f64) -> Passed {
        let bits = u64::from_le_bytes(self.bytes[self.at..self.at + 8].try_into().unwrap());
        let good = bits >> 63 == 0 && f64::from_bits(bits) <= greatest;
        self.pass(good, 8)
    }

    fn number_below(&mut self, count: usize) -> Passed {
        self.pass(word(self.bytes, self.at) < count, 4)
    }

    fn half(&mut self, greatest: u16) -> Passed {
        let v = u16::from_le_bytes([self.bytes[self.at], self.bytes[self.at + 1]]);
        self.pass(v <= greatest, 2)
    }

    fn byte(&mut self, good: impl Fn(u8) -> bool) -> Passed {
        self.pass(good(self.bytes[self.at]), 1)
    }

    fn spare(&mut self, count: usize) -> Passed {
        (0..count).try_for_each(|_| self.byte(|b| b == 0))
    }
}
