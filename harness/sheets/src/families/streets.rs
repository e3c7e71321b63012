//! A grid of streets, some one-way. The points lie along a walk through it, so most have a path of several roads.

use super::grid::{far, roads, spots, Spot};
use crate::build::{sheet, shuffled, sometimes_along};
use crate::random::Random;
use crate::{Point, Road, Row, Sheet};

/// What a grid of streets is made by.
pub struct Plan {
    pub width: usize,
    pub height: usize,
    pub steps: usize,
    pub points: usize,
    /// Of 100 neighbouring roads, those that get a row.
    pub near: usize,
    /// The same of all other roads.
    pub elsewhere: usize,
    /// DNP and limits fit the walk, so that many legs in a row have a path.
    pub tame: bool,
}

pub fn small(r: &mut Random) -> Sheet {
    let (width, height) = r.of(&[(2, 2), (2, 3), (3, 2), (3, 3), (3, 3), (3, 4), (4, 4)]);
    let steps = 1 + r.below(8);
    let points = 2 + r.below(4.min(steps + 1));
    let near = r.of(&[0, 15, 28, 28, 60]);
    let tame = r.chance(30);
    streets(
        r,
        Plan {
            width,
            height,
            steps,
            points,
            near,
            elsewhere: 0,
            tame,
        },
    )
}

/// Up to 16 points.
pub fn long_line(r: &mut Random) -> Sheet {
    let (width, height) = r.of(&[(3, 3), (4, 4), (4, 5), (5, 6)]);
    let points = 2 + r.below(15);
    let steps = points + r.below(20);
    let near = r.of(&[0, 5, 10, 25]);
    let tame = r.chance(90);
    streets(
        r,
        Plan {
            width,
            height,
            steps,
            points,
            near,
            elsewhere: 0,
            tame,
        },
    )
}

/// A grid of 196 nodes and up to 6 points.
pub fn desk(r: &mut Random) -> Sheet {
    let points = 2 + r.below(5);
    let steps = points + r.below(25);
    let near = r.of(&[10, 25, 60]);
    streets(
        r,
        Plan {
            width: 14,
            height: 14,
            steps,
            points,
            near,
            elsewhere: 0,
            tame: true,
        },
    )
}

/// Roads in a row, mostly without U-turns.
fn walk(r: &mut Random, roads: &[Road], lists: &[Vec<usize>], steps: usize) -> Vec<usize> {
    let mut walk = vec![r.below(roads.len())];
    for _ in 0..steps {
        let last = &roads[walk[walk.len() - 1]];
        let leaving = &lists[last.target];
        let turns = r.chance(10);
        let on = |e: &&usize| roads[**e].target != last.source || leaving.len() == 1 || turns;
        let choices: Vec<usize> = leaving.iter().filter(on).copied().collect();
        if choices.is_empty() {
            break;
        }
        walk.push(r.of(&choices));
    }
    walk
}

/// Where the points lie: the place in the walk and the fraction of that road.
fn stops(r: &mut Random, walk: &[usize], points: usize) -> Vec<(usize, f64)> {
    let mut stops: Vec<(usize, f64)> = vec![];
    let twice = r.chance(20);
    for k in 0..points {
        let mut place = k * (walk.len() - 1) / (points - 1);
        if twice && k == 1 {
            place = stops[0].0;
        }
        let same = stops.last().is_some_and(|s| s.0 == place);
        let fraction = if same {
            (0.6 + 0.05 * k as f64).min(1.0)
        } else {
            r.of(&[0.0, 0.25, 0.5, 0.5, 0.6, 0.99, 1.0, 0.01])
        };
        stops.push((place, fraction));
    }
    stops
}

/// Metres between two stops along the walk.
fn between(roads: &[Road], walk: &[usize], from: (usize, f64), to: (usize, f64)) -> f64 {
    let length = |place: usize| roads[walk[place]].length;
    if from.0 == to.0 {
        return length(from.0) * (to.1 - from.1).max(0.0);
    }
    let inner: f64 = (from.0 + 1..to.0).map(length).sum();
    length(from.0) * (1.0 - from.1) + inner + length(to.0) * to.1
}

fn rows(r: &mut Random, roads: &[Road], own: usize, fraction: f64, plan: &Plan) -> Vec<Row> {
    let mut rows = vec![];
    let home = &roads[own];
    for (i, road) in roads.iter().enumerate() {
        let touches =
            [home.source, home.target].contains(&road.source) || road.target == home.source;
        let share = if touches { plan.near } else { plan.elsewhere };
        // One of 64 rows is kept for the point's own road.
        let most = if i < own { 63 } else { 64 };
        if i == own {
            let length = road.length + if r.chance(85) { 0.0 } else { 3.0 };
            rows.push(Row {
                road: i,
                distance: r.of(&[0.0, 0.0, 0.0, 1.5, 4.0, 5.0, 7.0]),
                bearing: 90.0 + r.below(5) as f64,
                along: length * fraction,
                length,
            });
        } else if rows.len() < most && r.chance(share) {
            rows.push(Row {
                road: i,
                distance: r.of(&[5.0, 8.0, 10.0, 12.0, 25.0, 60.0]),
                bearing: 90.0 + r.of(&[0.0, 10.0, 45.0, 90.0, 95.0]),
                along: r.of(&[0.0, road.length, road.length / 2.0, road.length / 4.0]),
                length: road.length,
            });
        }
    }
    rows
}

pub fn streets(r: &mut Random, plan: Plan) -> Sheet {
    let spots = spots(r, plan.width, plan.height);
    let roads = roads(r, plan.width, &spots);
    along_a_walk(r, spots, roads, plan)
}

/// Points along a walk over these roads.
pub fn along_a_walk(r: &mut Random, spots: Vec<Spot>, roads: Vec<Road>, plan: Plan) -> Sheet {
    let nodes = spots.len();
    let lists = shuffled(r, &roads, nodes);
    let walk = walk(r, &roads, &lists, plan.steps);
    let count = plan.points.min(walk.len() + 1);
    let stops = stops(r, &walk, count);
    let points: Vec<Point> = (0..count)
        .map(|k| stop(r, &roads, &walk, &stops, k, &plan))
        .collect();
    let place = |k: usize| {
        let (at, fraction) = stops[k];
        let road = &roads[walk[at]];
        let (a, b) = (spots[road.source], spots[road.target]);
        (a.0 + (b.0 - a.0) * fraction, a.1 + (b.1 - a.1) * fraction)
    };
    let factor = r.of(&[0.0, 1.0, 1.0, 1.0, 0.5, 3.0, 5.0]);
    let noisy = r.chance(15);
    let mut noise = r.clone();
    let ahead = |v: usize, g: usize| match noisy {
        true => noise.metres(200),
        false => (far(spots[v], spots[g]) * factor).floor(),
    };
    let first: Vec<f64> = spots.iter().map(|s| far(*s, place(0)).floor()).collect();
    let last: Vec<f64> = spots
        .iter()
        .map(|s| far(*s, place(count - 1)).floor())
        .collect();
    let mut s = sheet(nodes, roads, lists, points, ahead);
    (s.from_first, s.from_last) = (first, last);
    settle(r, &mut s);
    s
}

fn stop(
    r: &mut Random,
    roads: &[Road],
    walk: &[usize],
    stops: &[(usize, f64)],
    k: usize,
    plan: &Plan,
) -> Point {
    let (place, fraction) = stops[k];
    let own = walk[place];
    let last = k + 1 == stops.len();
    let length = if last {
        0.0
    } else {
        between(roads, walk, stops[k], stops[k + 1])
    };
    let reach = if last { place } else { stops[k + 1].0 };
    let low = (place..=reach)
        .map(|j| roads[walk[j]].frc)
        .max()
        .unwrap_or(7);
    let open = if last {
        r.chance(85)
    } else {
        !plan.tame && r.chance(4)
    };
    let below = if plan.tame {
        low
    } else {
        r.of(&[low, low.saturating_sub(2), 0])
    };
    let limit = (!open).then(|| r.of(&[low, low, 7, below]));
    let factor = if plan.tame {
        1.0
    } else {
        r.of(&[1.0, 1.0, 1.0, 0.9, 1.2])
    };
    let dnp = (length * factor / 5.0).round() * 5.0;
    Point {
        dnp: if open { 0.0 } else { dnp },
        bearing: 90,
        frc: roads[own].frc,
        fow: r.of(&[3, 3, 2, 6]),
        limit,
        rows: rows(r, roads, own, fraction, plan),
    }
}

fn settle(r: &mut Random, s: &mut Sheet) {
    sometimes_along(r, s, 35);
    s.settings.snap = r.chance(70);
    if r.chance(40) {
        s.settings.snap_extension = 400.0;
    }
    if r.chance(50) {
        s.settings.absolute_tolerance = 1000.0;
    }
    if r.chance(20) {
        s.settings.slip_penalty = r.of(&[0.0, 300.0]);
        s.settings.access_penalty = r.of(&[0.0, 150.0]);
    }
    if r.chance(15) {
        s.settings.frc_tolerance = r.of(&[0, 1, 3, 255]);
    }
    if r.chance(10) {
        s.settings.most_candidates = r.of(&[1, 2, 64]);
    }
}
