//! The example host's measuring against the published spatial.rs, bit for bit: distance, along, length, both bearings,
//! and which boxes are near. A fifth of the places lie at the date line.

#[allow(dead_code)]
#[path = "../../../rust/examples/host/measure.rs"]
mod measure;
#[allow(dead_code)]
#[rustfmt::skip]
#[path = "../../original/crates/road-network/src/spatial.rs"]
mod spatial;

use geo::{Coord, LineString, Point};
use measure::{Place, Side};
use petgraph::graph::EdgeIndex;
use spatial::{BearingDirection, EdgeEnvelope, SpatialIndex};

/// Random numbers from 0 to 1.
struct Dice(u64);

impl Dice {
    fn next(&mut self) -> f64 {
        self.0 ^= self.0 << 13;
        self.0 ^= self.0 >> 7;
        self.0 ^= self.0 << 17;
        (self.0 >> 11) as f64 / (1u64 << 53) as f64
    }

    /// A place up to so many degrees away in either axis.
    fn near(&mut self, from: Place, degrees: f64) -> Place {
        let lon = from.lon + (2.0 * self.next() - 1.0) * degrees;
        Place {
            lon: (lon + 540.0).rem_euclid(360.0) - 180.0,
            lat: from.lat + (2.0 * self.next() - 1.0) * degrees,
        }
    }

    /// A line of two to six places, some of them equal, and a place beside it.
    fn case(&mut self) -> (Vec<Place>, Place) {
        let lon = match self.next() < 0.2 {
            true => 179.9999,
            false => 360.0 * self.next() - 180.0,
        };
        let lat = 160.0 * self.next() - 80.0;
        let start = self.near(Place { lon, lat }, 0.001);
        let degrees = 2e-6 * 10f64.powf(3.0 * self.next());
        let mut line = vec![start];
        for _ in 0..1 + (5.0 * self.next()) as usize {
            let last = line[line.len() - 1];
            let next = match self.next() < 0.1 {
                true => last,
                false => self.near(last, degrees),
            };
            line.push(next);
        }
        let beside = self.near(start, degrees);
        (line, beside)
    }
}

fn is_same(line: &[Place], place: Place, radius_m: f64) -> bool {
    let coords = line.iter().map(|p| Coord { x: p.lon, y: p.lat });
    let geometry = LineString(coords.collect());
    let point = Point::new(place.lon, place.lat);
    let theirs = spatial::project_onto_line(point, &geometry).expect("a line has two places");
    let ours = measure::project(place, line);
    let bearing = |theirs_to, ours_to| {
        let chord = measure::CHORD_M;
        [
            spatial::bearing_along(&geometry, theirs.along_m, chord, theirs_to),
            measure::bearing_along(line, ours.along_m, chord, ours_to),
        ]
    };
    let index = SpatialIndex::new(vec![EdgeEnvelope::new(EdgeIndex(0), &geometry)]);
    let around = measure::box_around(place, radius_m);
    let numbers = [
        [theirs.distance_m, ours.distance_m],
        [theirs.along_m, ours.along_m],
        [theirs.length_m, ours.line_m],
        [theirs.length_m, measure::length(line)],
        bearing(BearingDirection::Forward, Side::Forward),
        bearing(BearingDirection::Backward, Side::Backward),
    ];
    let is_near = !index.find_nearby(point, radius_m).is_empty();
    numbers.iter().all(|[a, b]| a.to_bits() == b.to_bits())
        && is_near == measure::meets(&around, &measure::bounds(line))
}

fn main() {
    let count = std::env::args().nth(1).and_then(|n| n.parse().ok());
    let count: u64 = count.expect("how many to compare");
    let mut dice = Dice(2026);
    let mut differ = 0;
    for _ in 0..count {
        let (line, place) = dice.case();
        let radius_m = 150.0 * dice.next();
        if !is_same(&line, place, radius_m) {
            differ += 1;
            if differ == 1 {
                println!("{place:?} within {radius_m} m of {line:?}");
            }
        }
    }
    println!("measuring: {count} compared, {differ} differ");
    std::process::exit((differ > 0) as i32);
}
