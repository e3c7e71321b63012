//! Many roads near each point, up to 64 rows: candidates are cut, only the first ten of a list make pairs, sums tie.

use crate::build::{road, sheet, shuffled, sometimes_along};
use crate::random::Random;
use crate::{Point, Road, Row, Sheet};

pub fn crowd(r: &mut Random) -> Sheet {
    let nodes = 3 + r.below(6);
    let count = 12 + r.below(53);
    let lanes = r.chance(60);
    let mut roads: Vec<Road> = vec![];
    for i in 0..count {
        // Lanes lead on, so that most pairs have a path.
        let source = r.below(nodes);
        let target = if lanes {
            (source + 1) % nodes
        } else {
            r.below(nodes)
        };
        let length = r.of(&[100.0, 100.0, 100.0, 80.0, 120.0, 10.0]);
        roads.push(road(100 + i as u64, source, target, length));
        roads[i].frc = r.of(&[3, 3, 3, 2, 4, 5]);
        roads[i].fow = r.of(&[3, 3, 3, 2, 6, 4]);
    }
    let lists = shuffled(r, &roads, nodes);
    let count = 2 + r.below(2);
    let points = (0..count)
        .map(|k| stop(r, &roads, k + 1 == count))
        .collect();
    let mut s = sheet(nodes, roads, lists, points, |_, _| 0.0);
    s.settings.most_candidates = r.of(&[10, 10, 12, 20, 64, 64, 5]);
    s.settings.frc_tolerance = r.of(&[2, 2, 1, 7]);
    if r.chance(30) {
        s.settings.absolute_tolerance = r.of(&[20.0, 300.0]);
    }
    if r.chance(20) {
        (s.settings.frc_weight, s.settings.fow_weight) = (0.0, 0.0);
    }
    if r.chance(25) {
        // The best candidate need not be the nearest.
        s.settings.distance_weight = r.of(&[0.0, 0.1, 1.0]);
        s.settings.greatest_candidate_distance = r.of(&[3.0, 5.0, 10.0]);
    }
    sometimes_along(r, &mut s, 30);
    s
}

fn stop(r: &mut Random, roads: &[Road], last: bool) -> Point {
    let share = r.of(&[25, 50, 80, 100]);
    let near = r.of(&[0, 5, 11]);
    let mut rows = vec![];
    for (i, road) in roads.iter().enumerate() {
        if rows.len() < 64 && r.chance(share) {
            rows.push(Row {
                road: i,
                distance: (near + r.below(6)) as f64,
                bearing: r.of(&[90.0, 90.0, 80.0, 100.0, 45.0, 180.0]),
                along: road.length * r.of(&[0.5, 0.5, 0.25, 0.75, 0.0, 1.0]),
                length: road.length,
            });
        }
    }
    Point {
        dnp: if last {
            0.0
        } else {
            r.of(&[50.0, 100.0, 200.0, 300.0])
        },
        bearing: 90,
        frc: 3,
        fow: r.of(&[3, 3, 0, 2]),
        limit: (!last).then(|| r.of(&[2, 3, 5])),
        rows,
    }
}
