//! Class limits: a short way over a road of some class and FOW, a long one beside it. Every limit, every tolerance.

use crate::build::{on, point, road, sheet, shuffled, sometimes_along};
use crate::random::Random;
use crate::Sheet;

pub fn limits(r: &mut Random) -> Sheet {
    let mut roads = vec![
        road(10, 0, 1, 100.0),
        road(11, 1, 2, 40.0),
        road(12, 1, 3, 60.0),
        road(13, 3, 2, 60.0),
        road(14, 2, 4, 100.0),
        road(15, 2, 4, 90.0),
    ];
    for road in &mut roads {
        road.frc = if r.chance(60) { 3 } else { r.below(8) as u8 };
        road.fow = r.of(&[3, 3, 3, 6, 1, 7]);
        road.access = r.chance(15);
    }
    roads[1].frc = r.below(8) as u8;
    let lists = shuffled(r, &roads, 5);
    let limit = if r.chance(8) {
        None
    } else {
        Some(r.below(8) as u8)
    };
    let distance = r.of(&[0.0, 12.0]);
    let first = vec![on(0, distance, 50.0, 100.0)];
    let mut last = vec![on(4, distance, 50.0, 100.0)];
    if r.chance(50) {
        last.push(on(5, distance, 45.0, 90.0));
    }
    let dnp = if limit.is_none() {
        0.0
    } else {
        r.of(&[150.0, 140.0, 220.0])
    };
    let mut points = vec![point(dnp, limit, first), point(0.0, None, last)];
    for p in &mut points {
        p.frc = if r.chance(60) { 3 } else { r.below(8) as u8 };
        p.fow = r.below(8) as u8;
    }
    if r.chance(20) {
        // Both points on one road.
        points[1].rows.insert(0, on(0, distance, 90.0, 100.0));
        points[0].dnp = if limit.is_none() { 0.0 } else { 40.0 };
    }
    let mut s = sheet(5, roads, lists, points, |_, _| 0.0);
    s.settings.frc_tolerance = r.of(&[0, 1, 2, 2, 3, 4, 7, 250, 255]);
    s.settings.snap = r.chance(50);
    if r.chance(50) {
        s.settings.absolute_tolerance = 400.0;
    }
    sometimes_along(r, &mut s, 30);
    s
}
