//! Few nodes and many roads: labels are made anew, entries grow stale, heaps fill.

use crate::build::{road, sheet, shuffled, sometimes_along};
use crate::random::Random;
use crate::{Point, Road, Row, Sheet};

pub fn dense(r: &mut Random) -> Sheet {
    let nodes = 4 + r.below(5);
    let count = nodes * 3 + r.below(12);
    let roads = roads(r, nodes, count);
    let lists = shuffled(r, &roads, nodes);
    let points = 2 + r.below(2);
    let points = (0..points)
        .map(|k| stop(r, &roads, k, k + 1 == points))
        .collect();
    let over = r.chance(40);
    let mut s = sheet(nodes, roads, lists, points, |v, g| match over && v != g {
        true => (r.below(20) * 15) as f64,
        false => 0.0,
    });
    s.settings.frc_tolerance = r.of(&[2, 3, 7]);
    if r.chance(30) {
        s.settings.search_factor = r.of(&[0.5, 1.0, 6.0]);
    }
    if r.chance(20) {
        (s.settings.slip_penalty, s.settings.access_penalty) = (0.0, 0.0);
    }
    sometimes_along(r, &mut s, 30);
    s
}

pub fn roads(r: &mut Random, nodes: usize, count: usize) -> Vec<Road> {
    let short = r.chance(50);
    let mut roads = vec![];
    for i in 0..count {
        let length = match short {
            true => r.below(30) as f64,
            false => 5.0 + r.below(4000) as f64 / 16.0,
        };
        roads.push(Road {
            id: 5_000_000_000 + i as u64,
            length,
            source: r.below(nodes),
            target: r.below(nodes),
            frc: r.below(6) as u8,
            fow: if r.chance(20) { 6 } else { 3 },
            access: r.chance(25),
        });
    }
    roads[0] = road(1, nodes - 1, 0, 60.0);
    roads[1] = road(2, nodes - 1, 0, 60.0);
    roads
}

fn stop(r: &mut Random, roads: &[Road], k: usize, last: bool) -> Point {
    let own = if k == 0 {
        0
    } else {
        2 + r.below(roads.len() - 2)
    };
    let mut rows: Vec<Row> = vec![];
    for (i, road) in roads.iter().enumerate() {
        if i != own && !r.chance(8) {
            continue;
        }
        let far = 5.0 + r.below(40) as f64;
        rows.push(Row {
            road: i,
            distance: if i == own { 1.0 } else { far },
            bearing: 90.0,
            along: road.length * r.of(&[0.0, 0.5, 1.0, 0.25]),
            length: road.length,
        });
    }
    Point {
        dnp: if last {
            0.0
        } else {
            r.of(&[60.0, 90.0, 120.0, 200.0])
        },
        bearing: 90,
        frc: 3,
        fow: 3,
        limit: (!last).then(|| r.of(&[3, 5, 7, 2])),
        rows,
    }
}
