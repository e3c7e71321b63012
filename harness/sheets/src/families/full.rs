//! Sheets whose counts are near their limits: 16 points, 1,024 nodes, 4,096 roads, 1,024 rows, 1,024 goal rows.

use super::grid::{roads, spots};
use super::streets::{along_a_walk, Plan};
use super::{chain, crowd, dense};
use crate::build::{add_goals, shuffled};
use crate::random::Random;
use crate::Sheet;

pub fn full(r: &mut Random) -> Sheet {
    match r.below(10) {
        0..=6 => town(r),
        7 => busy(r),
        8 => widened(r, chain::chain),
        _ => widened(r, crowd::crowd),
    }
}

/// A large grid with points along a walk.
fn town(r: &mut Random) -> Sheet {
    let (width, height) = r.of(&[(32, 32), (32, 32), (64, 16), (31, 33), (20, 20)]);
    let spots = spots(r, width, height);
    let mut roads = roads(r, width, &spots);
    // Short cuts up to the greatest number of roads.
    while roads.len() < 4096 && !r.chance(1) {
        let mut cut = roads[r.below(roads.len())].clone();
        cut.target = roads[r.below(roads.len())].target;
        cut.length *= 1.0 + r.below(5) as f64;
        cut.id = roads.len() as u64;
        roads.push(cut);
    }
    roads.truncate(4096);
    let points = if r.chance(15) { 16 } else { 2 + r.below(15) };
    let steps = points + r.below(40);
    let near = r.of(&[3, 10, 40, 100]);
    let plan = Plan {
        width,
        height,
        steps,
        points,
        near,
        elsewhere: r.of(&[0, 0, 0, 4]),
        tame: r.chance(85),
    };
    let mut s = along_a_walk(r, spots, roads, plan);
    if r.chance(15) {
        add_goals(r, &mut s, 100);
    }
    s
}

/// A large grid where every candidate scores alike and no distance to a goal is known, so that nearly every pair of a leg is searched over the whole network.
pub fn heavy(r: &mut Random) -> Sheet {
    let mut s = town(r);
    let set = &mut s.settings;
    set.greatest_bearing_difference = 180.0;
    for weight in [
        &mut set.distance_weight,
        &mut set.bearing_weight,
        &mut set.frc_weight,
        &mut set.fow_weight,
    ] {
        *weight = 0.0;
    }
    for (_, distances) in &mut s.goals {
        distances.fill(0.0);
    }
    s
}

/// Few nodes and 4,096 roads.
fn busy(r: &mut Random) -> Sheet {
    let mut s = dense::dense(r);
    let count = 4096 - r.below(3);
    while s.roads.len() < count {
        let mut road = s.roads[r.below(s.roads.len())].clone();
        road.length = r.of(&[road.length, 10.0, 400.0]);
        (road.source, road.target) = (r.below(s.nodes), r.below(s.nodes));
        s.roads.push(road);
    }
    s.lists = shuffled(r, &s.roads, s.nodes);
    s
}

/// A small sheet among 1,024 nodes, whose numbers are spread over them.
fn widened(r: &mut Random, small: fn(&mut Random) -> Sheet) -> Sheet {
    let mut s = small(r);
    let nodes = 1024 - r.below(2);
    let mut places: Vec<usize> = (0..nodes).collect();
    r.shuffle(&mut places);
    for road in &mut s.roads {
        (road.source, road.target) = (places[road.source], places[road.target]);
    }
    let widen = |old: &[f64]| {
        let mut new = vec![0.0; nodes];
        old.iter()
            .enumerate()
            .for_each(|(i, d)| new[places[i]] = *d);
        new
    };
    s.from_first = widen(&s.from_first);
    s.from_last = widen(&s.from_last);
    s.goals = s
        .goals
        .iter()
        .map(|(g, d)| (places[*g], widen(d)))
        .collect();
    s.goals.sort_by_key(|g| g.0);
    s.nodes = nodes;
    s.lists = shuffled(r, &s.roads, nodes);
    s
}
