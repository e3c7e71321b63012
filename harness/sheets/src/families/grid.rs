//! The nodes and streets of a grid.

use crate::random::Random;
use crate::Road;

pub type Spot = (f64, f64);

pub fn far(a: Spot, b: Spot) -> f64 {
    ((a.0 - b.0).powi(2) + (a.1 - b.1).powi(2)).sqrt()
}

/// Nodes 100 metres apart, more or less.
pub fn spots(r: &mut Random, width: usize, height: usize) -> Vec<Spot> {
    let jitter = if r.chance(40) { 1 } else { 31 };
    let spot = |i: usize| {
        let x = (i % width * 100 + r.below(jitter)) as f64;
        let y = (i / width * 100 + r.below(jitter)) as f64;
        (x, y)
    };
    (0..width * height).map(spot).collect()
}

/// Streets between neighbours, some missing, some one-way, sometimes a loop.
pub fn roads(r: &mut Random, width: usize, spots: &[Spot]) -> Vec<Road> {
    let equal = r.chance(30);
    let mut roads = vec![];
    for i in 0..spots.len() {
        for j in [i + 1, i + width] {
            let wraps = j == i + 1 && j % width == 0;
            if j < spots.len() && !wraps && !r.chance(8) {
                let stretch = 1.0 + r.below(4) as f64 / 10.0;
                let length = (far(spots[i], spots[j]) * stretch).round();
                add_street(r, &mut roads, i, j, if equal { 100.0 } else { length });
            }
        }
    }
    if roads.is_empty() || r.chance(12) {
        let node = r.below(spots.len());
        add_road(r, &mut roads, node, node, 40.0);
    }
    r.shuffle(&mut roads);
    let own = r.chance(80);
    for (i, road) in roads.iter_mut().enumerate() {
        road.id = if own {
            9000 + 7 * i as u64
        } else {
            700 + i as u64 % 3
        };
    }
    roads
}

fn add_road(r: &mut Random, roads: &mut Vec<Road>, source: usize, target: usize, length: f64) {
    let fow = if r.chance(12) { 6 } else { 3 };
    let (frc, access) = (2 + r.below(3) as u8, r.chance(18));
    roads.push(Road {
        id: 0,
        length,
        source,
        target,
        frc,
        fow,
        access,
    });
}

/// Both ways, or one way.
fn add_street(r: &mut Random, roads: &mut Vec<Road>, i: usize, j: usize, length: f64) {
    add_road(r, roads, i, j, length);
    let mut back = roads[roads.len() - 1].clone();
    (back.source, back.target) = (j, i);
    match r.below(10) {
        0 => *roads.last_mut().unwrap() = back,
        1 => {}
        _ => roads.push(back),
    }
}
