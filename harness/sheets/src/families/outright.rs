//! Both points on one road, which wins outright where its rules let it, beside a way over two roads that would score better.

use super::edges::beside;
use crate::build::{on, point, road, sheet, shuffled, sometimes_along};
use crate::random::Random;
use crate::{Row, Settings, Sheet};

pub fn outright(r: &mut Random) -> Sheet {
    let mut settings = Settings {
        absolute_tolerance: r.of(&[100.0, 100.0, 0.0, 50.0, 1000.0]),
        length_tolerance: r.of(&[0.35, 0.35, 0.0, 1.0]),
        most_candidates: r.of(&[10, 10, 64]),
        ..Settings::default()
    };
    if r.chance(30) {
        settings.distance_weight = r.of(&[0.0, 1.0]);
    }
    let dnp = r.of(&[100.0, 100.0, 50.0, 0.0, 1.0, 2.0, 5.0, 200.0, 1000.0]);
    let single = 1 + r.below(3);
    let mut roads = vec![];
    let (mut first, mut last): (Vec<Row>, Vec<Row>) = (vec![], vec![]);
    for i in 0..single {
        let length = single_length(r, &settings, dnp);
        roads.push(road(50 + i as u64, 0, 1, length));
        if r.chance(25) {
            (roads[i].frc, roads[i].fow) = (r.of(&[3, 4, 5, 6]), r.of(&[3, 6]));
        }
        let from = r.of(&[0.0, 0.25, 0.5]);
        first.push(on(i, near(r), from, 1.0));
        last.push(on(i, near(r), from + 0.5, 1.0));
    }
    roads.push(road(60, 2, 3, 100.0));
    roads.push(road(61, 3, 4, 100.0));
    let distance = r.of(&[5.0, 12.0, 12.0, 20.0]);
    if r.chance(70) {
        first.push(on(single, distance, 50.0, 100.0));
        last.push(on(single + 1, distance, r.of(&[50.0, 0.0, 100.0]), 100.0));
    }
    let lists = shuffled(r, &roads, 5);
    let limit = Some(r.of(&[3, 3, 2, 5, 7]));
    let points = vec![point(dnp, limit, first), point(0.0, None, last)];
    let mut s = sheet(5, roads, lists, points, |_, _| 0.0);
    s.settings = settings;
    s.settings.snap = r.chance(50);
    sometimes_along(r, &mut s, 30);
    s
}

/// At or about the distances that the rules name.
fn near(r: &mut Random) -> f64 {
    let distance = r.of(&[0.0, 0.0, 2.0, 4.0, 5.0, 5.0, 7.0, 10.0, 10.0, 11.0]);
    beside(r, distance)
}

/// Half of it lies at or about a least or greatest length of the leg.
fn single_length(r: &mut Random, s: &Settings, dnp: f64) -> f64 {
    let greatest = (dnp * (1.0 + s.length_tolerance)).max(dnp + s.absolute_tolerance);
    let least = (dnp * (1.0 - s.length_tolerance)).min((dnp - s.absolute_tolerance).max(0.0));
    let half = r.of(&[
        dnp,
        greatest,
        greatest * 3.0,
        greatest * 2.5,
        greatest * 1.5,
        least,
        least / 2.0,
        3.0,
    ]);
    beside(r, half) * 2.0
}
