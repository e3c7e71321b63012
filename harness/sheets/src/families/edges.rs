//! Values that lie exactly at a comparison, or one bit beside it.

use crate::build::{in_order, on, point, road, sheet, sometimes_along};
use crate::random::Random;
use crate::{Road, Sheet};

/// The value, or a neighbour of it.
pub fn beside(r: &mut Random, x: f64) -> f64 {
    match r.below(4) {
        0 if x > 0.0 => f64::from_bits(x.to_bits() - 1),
        1 => f64::from_bits(x.to_bits() + 1),
        _ => x,
    }
}

pub fn edges(r: &mut Random) -> Sheet {
    let mut s = match r.below(7) {
        0 => same_road(r),
        1 => part_of_a_leg(r),
        2 => search_bound(r),
        3 => valid_length(r),
        4 => nothing_between(r),
        5 => zero_ends(r),
        _ => one_road_varied(r),
    };
    sometimes_along(r, &mut s, 35);
    s
}

/// S1 of the scope, or S2 to S4.
pub fn one_road(alongs: &[f64]) -> Sheet {
    let rows = |a: &f64| vec![on(0, 0.0, *a, 100.0)];
    let mut points: Vec<crate::Point> = alongs.iter().map(|a| point(0.0, None, rows(a))).collect();
    if let Some(p) = points.first_mut() {
        (p.dnp, p.limit) = (50.0, Some(3));
    }
    let roads = vec![road(700, 0, 1, 100.0)];
    let lists = in_order(&roads, 2);
    let mut s = sheet(2, roads, lists, points, |_, _| 0.0);
    s.goals = vec![(0, vec![0.0, 0.0])];
    s
}

/// Candidates at the radius, at the greatest bearing difference and at the greatest candidate distance.
pub fn one_road_varied(r: &mut Random) -> Sheet {
    let mut s = match r.below(10) {
        0 => one_road(&[75.0, 25.0]),
        1 => one_road(&[25.0]),
        2 => one_road(&[]),
        _ => one_road(&[25.0, 75.0]),
    };
    let radius = r.of(&[100.0, 10.0, 5.0, 35.0, 0.0]);
    s.settings.search_radius = radius;
    s.settings.greatest_candidate_distance = r.of(&[35.0, 10.0, 0.0]);
    s.settings.greatest_bearing_difference = r.of(&[90.0, 20.0, 0.0, 180.0]);
    let bearing = s.settings.greatest_bearing_difference;
    let turned = r.of(&[0, 10, 90, 180, 270, 350, 360]);
    for p in &mut s.points {
        p.bearing = turned;
        for row in &mut p.rows {
            let distance = r.of(&[
                radius,
                s.settings.greatest_candidate_distance,
                5.0,
                10.0,
                0.0,
            ]);
            row.distance = beside(r, distance);
            let signed = turned as f64 + r.of(&[bearing, -bearing, 0.0]);
            row.bearing = beside(r, signed.rem_euclid(360.0)).min(360.0);
        }
    }
    s
}

/// Both points on one road at 5 and 10 metres, lengths at their bounds.
fn same_road(r: &mut Random) -> Sheet {
    let mut s = one_road(&[25.0, 75.0]);
    let distance = r.of(&[4.0, 5.0, 10.0, 0.0, 11.0]);
    for p in &mut s.points {
        p.rows[0].distance = if r.chance(60) {
            beside(r, distance)
        } else {
            0.0
        };
    }
    let length = r.of(&[100.0, 200.0, 270.0, 800.0, 1200.0, 5.0, 0.0]);
    s.roads[0].length = beside(r, length);
    s.points[0].dnp = r.of(&[50.0, 100.0, 35.0, 1000.0, 300.0, 0.0, 200.0]);
    if r.chance(20) {
        s.points[1].rows[0].along = r.of(&[25.0, 25.000000000000004]);
    }
    if r.chance(30) {
        s.settings.absolute_tolerance = r.of(&[0.0, 50.0, 1000.0]);
        s.settings.length_tolerance = r.of(&[0.0, 0.5, 1.0, 2.0]);
    }
    s
}

/// Roads in a row with the points on the first and the last.
fn straight(lengths: &[f64], from: f64, to: f64, dnp: f64) -> Sheet {
    let roads: Vec<Road> = (0..lengths.len())
        .map(|i| road(300 + i as u64, i, i + 1, lengths[i]))
        .collect();
    let end = lengths.len() - 1;
    let first = vec![on(0, 0.0, from, lengths[0])];
    let last = vec![on(end, 0.0, to, lengths[end])];
    let points = vec![point(dnp, Some(3), first), point(0.0, None, last)];
    let lists = in_order(&roads, lengths.len() + 1);
    sheet(lengths.len() + 1, roads, lists, points, |_, _| 0.0)
}

/// A terminal part of just 3 of 100: three quarters of a road of 4.
fn part_of_a_leg(r: &mut Random) -> Sheet {
    let part = |r: &mut Random| match r.below(4) {
        0 => 0.0,
        1 => 2.0,
        _ => 3.0,
    };
    let (start, end) = (part(r), part(r));
    let scale = r.of(&[1.0, 2.0, 0.5, 8.0]);
    let inner = beside(r, 100.0 - start - end);
    let lengths = [4.0 * scale, inner * scale, 4.0 * scale];
    let mut s = straight(&lengths, (4.0 - start) * scale, end * scale, 100.0 * scale);
    s.settings.snap = r.chance(50);
    s
}

/// The search's bound is met exactly, or no room is left for a search.
fn search_bound(r: &mut Random) -> Sheet {
    let rough = (
        r.below(200_000) as f64 / 997.0,
        r.below(200_000) as f64 / 997.0,
    );
    let (start, end) = r.of(&[(250.0, 250.0), (200.0, 200.0), (150.0, 250.0), rough, rough]);
    let inner = (500.0 - start) - end;
    let inner = beside(r, inner);
    let mut lengths = vec![start, end];
    if inner > 1e-300 || r.chance(30) {
        lengths.insert(1, inner);
    }
    if r.chance(30) {
        lengths.insert(1, 0.0);
    }
    let mut s = straight(&lengths, 0.0, end, 500.0);
    s.settings.search_factor = r.of(&[1.0, 0.5, 1.0000000000000002]);
    s.settings.snap = r.chance(50);
    if r.chance(40) {
        s.roads[1].fow = 6;
    }
    s
}

/// The length of a leg lies at its least or at its greatest.
fn valid_length(r: &mut Random) -> Sheet {
    let middle = r.of(&[100.0, 35.0, 65.0, 135.0, 200.0, 300.0, 0.0]);
    let middle = beside(r, middle);
    let ends = r.of(&[0.0, 50.0]);
    let dnp = r.of(&[100.0, 200.0, 300.0, 400.0, 50.0]);
    let mut s = straight(&[100.0, middle, 100.0], 100.0 - ends, ends, dnp);
    s.settings.absolute_tolerance = r.of(&[100.0, 0.0, 50.0]);
    s.settings.length_tolerance = r.of(&[0.35, 0.5, 0.0, 1.0, 2.0]);
    s.settings.snap = r.chance(50);
    if r.chance(20) {
        // Without a path entry the absolute tolerance alone is the greatest length.
        (s.points[0].dnp, s.points[0].limit) = (0.0, None);
        let missing: f64 = r.of(&[0.0, 0.5, 1.0]);
        s.settings.absolute_tolerance = middle + 2.0 * ends - missing.min(middle);
    }
    s
}

/// Legs of length 0, with and without roads between, on two or three points.
fn nothing_between(r: &mut Random) -> Sheet {
    let zeros = r.below(3);
    let mut lengths = vec![100.0];
    lengths.extend(vec![0.0; zeros]);
    lengths.push(100.0);
    let mut s = straight(&lengths, 100.0, 0.0, r.of(&[0.0, 50.0, 100.0, 101.0]));
    if r.chance(50) {
        let before = point(50.0, Some(3), vec![on(0, 0.0, 50.0, 100.0)]);
        s.points.insert(0, before);
        s.goals.push((s.roads.len(), vec![0.0; s.nodes]));
        s.goals.push((0, vec![0.0; s.nodes]));
        s.goals.sort_by_key(|g| g.0);
    }
    if r.chance(50) {
        let end = s.roads.len() - 1;
        let after = point(0.0, None, vec![on(end, 0.0, 50.0, 100.0)]);
        let last = s.points.last_mut().unwrap();
        (last.limit, last.dnp) = (Some(3), 50.0);
        s.points.push(after);
    }
    s.settings.snap = r.chance(50);
    s.settings.absolute_tolerance = r.of(&[100.0, 1000.0]);
    s
}

/// Roads of no length, or of the least, behind both ends: the walks add them, also without snapping.
fn zero_ends(r: &mut Random) -> Sheet {
    let tiny = r.of(&[0.0, 5e-324, 1e-310, 1.0]);
    let roads = vec![
        road(1, 1, 2, 100.0),
        road(2, 2, 3, tiny),
        road(3, 0, 1, tiny),
    ];
    let first = vec![on(0, 0.0, r.of(&[25.0, 0.0]), 100.0)];
    let last = vec![on(0, 0.0, r.of(&[75.0, 100.0]), 100.0)];
    let dnp = r.of(&[50.0, 50.0, 20.0]);
    let points = vec![point(dnp, Some(3), first), point(0.0, None, last)];
    let lists = in_order(&roads, 4);
    let mut s = sheet(4, roads, lists, points, |_, _| 0.0);
    s.from_first = vec![r.of(&[25.0, 30.0]), 30.0, 80.0, 80.0];
    s.from_last = vec![80.0, 80.0, 30.0, r.of(&[25.0, 30.0])];
    s.settings.snap = r.chance(60);
    s.settings.snap_extension = r.of(&[25.0, 1.0, 0.0, 2.0]);
    // An excellent match may be longer than the greatest length, and then leaves no room.
    s.settings.absolute_tolerance = r.of(&[100.0, 0.0]);
    s
}
