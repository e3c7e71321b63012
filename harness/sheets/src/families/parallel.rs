//! Parallel roads of equal length, all points as near: pairs and routes tie. Behind them a chain that ends at the snap's cap, or near it.

use crate::build::{on, point, road, sheet, shuffled};
use crate::random::Random;
use crate::{Road, Sheet};

pub fn parallel(r: &mut Random) -> Sheet {
    let width = 2 + r.below(4);
    let mut roads: Vec<Road> = vec![];
    let mut add = |source: usize, target: usize, length: f64| {
        roads.push(road(700 + roads.len() as u64, source, target, length));
        roads.len() - 1
    };
    for _ in 0..width {
        add(0, 1, 100.0);
    }
    for _ in 0..1 + r.below(2) {
        add(1, 2, 30.0);
    }
    let last = if r.chance(50) { 1 } else { width };
    let ends: Vec<usize> = (0..last).map(|_| add(2, 3, 100.0)).collect();
    add(3, 4, r.of(&[10.0, 15.0, 25.0]));
    add(4, 5, r.of(&[10.0, 15.0, 5.0]));
    if r.chance(50) {
        // FRC and FOW alone tell the roads apart.
        for road in &mut roads {
            (road.frc, road.fow) = (2 + r.below(3) as u8, r.below(8) as u8);
        }
    }
    let lists = shuffled(r, &roads, 6);
    let distance = r.of(&[0.0, 20.0, 5.0]);
    let dnp = 110.0 + 10.0 * r.below(5) as f64;
    let first = (0..width).map(|i| on(i, distance, 50.0, 100.0)).collect();
    let second = ends.iter().map(|i| on(*i, distance, 50.0, 100.0)).collect();
    let mut points = vec![point(dnp, Some(3), first), point(0.0, None, second)];
    if r.chance(50) {
        points.iter_mut().for_each(|p| p.fow = r.below(8) as u8);
    }
    let mut s = sheet(6, roads, lists, points, |_, _| 0.0);
    s.from_last = vec![9.0, 9.0, 9.0, 9.0, 6.0, 5.0];
    s.kind = 1 + r.below(2) as u32;
    s.settings.snap = r.chance(80);
    s
}
