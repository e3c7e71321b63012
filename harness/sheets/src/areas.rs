//! The sizes of the lent areas in the order of the call, each half of an area of two halves for itself.

#[derive(Debug, Clone, Copy, PartialEq, Eq)]
pub struct Areas(pub [usize; 11]);

pub const NAMES: [&str; 11] = [
    "real",
    "penalised",
    "came_from",
    "key",
    "cost",
    "node",
    "order",
    "covered",
    "coverage",
    "ids",
    "lengths",
];

/// The areas in the order in which a seed draws them. Two that were lent once are still drawn, and then not used: so a seed stands for the sheet it stood for.
pub const DRAWN: [Option<usize>; 13] = [
    Some(0),
    Some(1),
    Some(2),
    None,
    None,
    Some(3),
    Some(4),
    Some(5),
    Some(6),
    Some(7),
    Some(8),
    Some(9),
    Some(10),
];

impl Areas {
    /// Node areas, the four parts of the heap, the coverage area and the answer lists.
    pub fn of(nodes: usize, heap: usize, coverage: usize, lists: usize) -> Areas {
        let [n, h, c, l] = [nodes, heap, coverage, lists];
        Areas([n, n, n, h, h, h, h, c, c, l, l])
    }

    /// Those of the program `roadlist`.
    pub fn of_roadlist() -> Areas {
        Areas::of(64, 128, 256, 256)
    }

    /// The least that refusal 6 lets pass, with this heap.
    pub fn least(points: usize, nodes: usize, heap: usize) -> Areas {
        let lists = (points + 4) * (nodes + 1);
        Areas::of(nodes, heap, lists, lists)
    }

    pub fn nodes(&self) -> usize {
        self.0[..3].iter().copied().min().unwrap()
    }

    pub fn heap(&self) -> usize {
        self.0[3..7].iter().copied().min().unwrap()
    }

    /// The coverage area and the answer lists.
    pub fn lists(&self) -> usize {
        self.0[7..].iter().copied().min().unwrap()
    }
}
