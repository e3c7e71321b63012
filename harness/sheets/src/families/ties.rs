//! Equal lengths and little guidance: which of several shortest ways is found turns on the heap's ties.
//! With a length that no f64 holds exactly, it turns on the order of additions.
//! With distances that swallow the lengths, an entry can be popped before a better one of its node.

use crate::build::{on, point, road, sheet, shuffled, sometimes_along};
use crate::random::Random;
use crate::{Road, Sheet};

pub fn ties(r: &mut Random) -> Sheet {
    let nodes = 5 + r.below(12);
    let count = nodes * 2 + r.below(nodes + 1);
    let swallowed = r.chance(20);
    let unit = if swallowed {
        1e-10
    } else {
        r.of(&[10.0, 10.0, 10.0, 10.1, 0.7, 33.3])
    };
    let two = r.chance(50);
    let mut roads: Vec<Road> = vec![];
    for i in 0..count {
        let length = if two && r.chance(30) {
            2.0 * unit
        } else {
            unit
        };
        let (source, target) = (r.below(nodes), r.below(nodes));
        roads.push(road(700 + i as u64, source, target, length));
    }
    roads[0].target = 0;
    roads[1].source = nodes - 1;
    if r.chance(70) {
        forwards(r, &mut roads[2..], nodes);
    }
    if r.chance(50) {
        for road in &mut roads[2..] {
            road.access = r.chance(40);
            road.fow = if r.chance(15) { 6 } else { 3 };
        }
    }
    let lists = shuffled(r, &roads, nodes);
    let first = point(10.0 * unit, Some(3), vec![on(0, 0.0, 5.0, 10.0)]);
    let last = point(0.0, None, vec![on(1, 0.0, 5.0, 10.0)]);
    let ahead = |_, _| match (swallowed, two) {
        (true, _) => 10_000_000.0,
        (_, true) => 0.0,
        (_, false) => r.below(3) as f64 * unit,
    };
    let mut s = sheet(nodes, roads, lists, vec![first, last], ahead);
    s.settings.access_penalty = r.of(&[10.0, unit, 0.1, 0.3]);
    s.settings.slip_penalty = r.of(&[20.0, unit, 0.7]);
    sometimes_along(r, &mut s, 30);
    s
}

/// Roads that lead on by one to three nodes.
fn forwards(r: &mut Random, roads: &mut [Road], nodes: usize) {
    for road in roads {
        road.source = r.below(nodes - 1);
        road.target = (road.source + 1 + r.below(3)).min(nodes - 1);
    }
}
