//! A chain of roads, one-way or both ways, with a junction, a ring or nothing at its ends: the walks at the ends.

use crate::build::{on, point, road, sheet, shuffled, sometimes_along};
use crate::random::Random;
use crate::{Road, Sheet};

/// Length of the two roads that the points lie on.
const LONG: f64 = 100.0;

pub fn chain(r: &mut Random) -> Sheet {
    let count = 4 + r.below(6);
    let far = 1 + r.below(count - 2);
    let (nodes, mut roads) = roads(r, count, far);
    mark(r, &mut roads);
    r.shuffle(&mut roads);
    for (i, road) in roads.iter_mut().enumerate() {
        road.id = 40 + i as u64;
    }
    let lists = shuffled(r, &roads, nodes);
    let points = points(r, &roads, far);
    let mut s = sheet(nodes, roads, lists, points, |_, _| 0.0);
    let wild = r.chance(25);
    for v in 0..nodes {
        s.from_first[v] = if wild { r.metres(60) } else { v as f64 * 10.0 };
        s.from_last[v] = if wild {
            r.metres(60)
        } else {
            (nodes - v) as f64 * 10.0
        };
    }
    s.settings.snap = r.chance(75);
    s.settings.snap_extension = r.of(&[25.0, 20.0, 30.0, 100.0, 400.0]);
    if r.chance(20) {
        // Little room is left under the greatest valid length.
        s.settings.absolute_tolerance = r.of(&[0.0, 5.0, 10.0, 20.0]);
        s.settings.length_tolerance = r.of(&[0.0, 0.1]);
    }
    sometimes_along(r, &mut s, 35);
    s
}

/// Nodes 0 to count - 1 in a row; roads 1 and `far` are long.
fn roads(r: &mut Random, count: usize, far: usize) -> (usize, Vec<Road>) {
    let both = r.chance(60);
    let ring = r.chance(20);
    let mut nodes = count;
    let mut roads = vec![];
    let mut add = |source: usize, target: usize, length: f64| {
        roads.push(road(0, source, target, length));
        if both {
            roads.push(road(0, target, source, length));
        }
    };
    for i in 0..count - 1 {
        let short = r.of(&[5.0, 8.0, 10.0, 12.5, 0.0, 20.0, 30.0]);
        add(i, i + 1, if i == far || i == 1 { LONG } else { short });
    }
    if ring {
        add(count - 1, 0, r.of(&[10.0, 0.0]));
    } else if r.chance(50) {
        let end = r.of(&[0, count - 1]);
        for _ in 0..1 + r.below(3) {
            add(end, nodes, 50.0);
            nodes += 1;
        }
    }
    (nodes, roads)
}

/// Classes, an access road, a slip road, a second road beside one, a loop.
fn mark(r: &mut Random, roads: &mut Vec<Road>) {
    if r.chance(30) {
        roads[0].access = true;
    }
    if r.chance(20) {
        roads.last_mut().unwrap().fow = 6;
    }
    if r.chance(30) {
        let i = r.below(roads.len());
        roads[i].frc = 7;
    }
    if r.chance(10) {
        let i = r.below(roads.len());
        let mut beside = roads[i].clone();
        beside.length += r.of(&[0.0, 5.0]);
        roads.push(beside);
    }
    if r.chance(5) {
        let node = roads[r.below(roads.len())].target;
        roads.push(road(0, node, node, 5.0));
    }
}

fn points(r: &mut Random, roads: &[Road], far: usize) -> Vec<crate::Point> {
    let forward = |i: usize| {
        let leads = |x: &Road| x.source == i && x.target == i + 1;
        roads.iter().position(leads).unwrap()
    };
    let from: f64 = r.of(&[0.25, 0.5, 0.0, 0.98, 0.97]);
    let to: f64 = r.of(&[0.75, 0.5, 1.0, 0.02, 0.03]);
    let inner: f64 = (2..far).map(|i| roads[forward(i)].length).sum();
    let length = match far {
        1 => LONG * (to - from).max(0.0),
        _ => LONG * (1.0 - from) + inner + LONG * to,
    };
    let distance = r.of(&[0.0, 2.0, 5.0, 10.0, 11.0]);
    let first = vec![on(forward(1), distance, LONG * from, LONG)];
    let last = vec![on(forward(far), distance, LONG * to, LONG)];
    let limit = Some(r.of(&[3, 5, 7]));
    let dnp = (length / 5.0).round() * 5.0;
    let mut points = vec![point(dnp, limit, first), point(0.0, None, last)];
    if far > 2 && r.chance(30) {
        let middle = forward(2);
        let half = roads[middle].length / 2.0;
        points[0].dnp = LONG * (1.0 - from) + half;
        let rest = (length - points[0].dnp).max(0.0);
        let rows = vec![on(middle, distance, half, 2.0 * half)];
        points.insert(1, point(rest, Some(7), rows));
    }
    points
}
