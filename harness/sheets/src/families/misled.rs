//! Searches that open nodes again and again: at each turn the shorter of two ways on seems so far from the goal that it is tried last, after everything behind the longer one.
//!
//! ```text
//!  entry → 0 ──────→ 1 ──────→ 2 ─ … ─ turns      the longer way: 1 + 2^(turns - 1 - i) metres
//!          ├─→ side ─┘├─→ side ─┘                  the shorter way: 1 metre in two roads
//!          └──── the way to the goal, longer than all of it ────→ goal → exit
//! ```

use crate::build::{on, point, road, sheet, shuffled, sometimes_along};
use crate::random::Random;
use crate::Sheet;

/// Of four to nine turns; the heap of `roadlist` lasts for the fewest.
pub fn misled(r: &mut Random) -> Sheet {
    let turns = 4 + r.below(6);
    let side = |i: usize| turns + 1 + i;
    let [goal, entry, exit] = [0, 1, 2].map(|i| 2 * turns + 1 + i);
    let nodes = 2 * turns + 4;
    let reach = (turns + (1 << turns)) as f64 + 1.0;
    let way = reach * (turns + 2) as f64;
    let first = r.next();
    let mut roads = vec![
        road(first, entry, 0, 100.0),
        road(first ^ 1, 0, goal, way),
        road(first ^ 2, goal, exit, 100.0),
    ];
    for i in 0..turns {
        let more = (1 << (turns - 1 - i)) as f64;
        roads.push(road(3 * i as u64, i, i + 1, 1.0 + more));
        roads.push(road(3 * i as u64 + 1, i, side(i), 0.5));
        roads.push(road(3 * i as u64 + 2, side(i), i + 1, 0.5));
    }
    let lists = shuffled(r, &roads, nodes);
    let begin = r.below(100) as f64;
    let end = r.below(100) as f64;
    let points = vec![
        point(
            way + 100.0 - begin + end,
            Some(3),
            vec![on(0, 0.0, begin, 100.0)],
        ),
        point(0.0, None, vec![on(2, 0.0, end, 100.0)]),
    ];
    let mut s = sheet(nodes, roads, lists, points, |node, to| {
        let turn = node.wrapping_sub(turns + 1);
        match to == goal && turn < turns {
            true => reach * (turns - turn) as f64,
            false => 0.0,
        }
    });
    sometimes_along(r, &mut s, 30);
    s
}
