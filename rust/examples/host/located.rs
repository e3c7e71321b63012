//! What of a matched path is the location: the answer's offsets, and on top of them the reference's own.

use crate::measure::{self, Place};
use crate::network::Network;
use crate::reference::Reference;
use hemokatu::{Kind, Match};

/// Places no more than this apart are one: a point is written in steps of up to 2.4 m.
pub const SAME_M: f64 = 3.0;

/// A matched path with the stretch of it that the reference means.
pub struct Located {
    /// The network's numbers of its roads.
    pub roads: Vec<usize>,
    /// Metres from the path's start to where the location begins and where it ends.
    /// A point along line begins and ends in one place.
    pub from_m: f64,
    pub to_m: f64,
    /// The whole path in metres, and its line.
    pub total_m: f64,
    pub line: Vec<Place>,
}

impl Located {
    /// None where an id is not the network's.
    pub fn new(network: &Network, reference: &Reference, found: &Match) -> Option<Located> {
        let roads: Option<Vec<usize>> = found
            .ids
            .iter()
            .map(|id| network.road_number(*id))
            .collect();
        let roads = roads?;
        let mut line: Vec<Place> = vec![];
        for road in &roads {
            line.extend(&network.roads[*road].line);
        }
        line.dedup();
        let total_m: f64 = found.lengths_m.iter().sum();
        let (first_m, last_m) = (found.start_offset_m, total_m - found.end_offset_m);
        let leg = |from: usize| leg_length(network, reference, &roads, [first_m, last_m], from);
        let first_leg = leg(0);
        let last_leg = leg(reference.points.len() - 2);
        let part = |offset: Option<f64>, leg: f64| offset.unwrap_or(0.0) * leg;
        let from_m = first_m + part(reference.start_offset, first_leg);
        let to_m = match reference.kind {
            Kind::PointAlongLine => from_m,
            _ => last_m - part(reference.end_offset, last_leg),
        };
        Some(Located {
            roads,
            from_m,
            to_m,
            total_m,
            line,
        })
    }
}

/// The metres of the first or the last leg on the path. The first and the last point are known on it. Any other lies where
/// it is nearest; where the path comes by more than once, that one counts which fits the distance to the next point best.
fn leg_length(
    network: &Network,
    reference: &Reference,
    roads: &[usize],
    [first_m, last_m]: [f64; 2],
    from: usize,
) -> f64 {
    let (count, dnp_m) = (
        reference.points.len(),
        reference.points[from].way.map_or(0.0, |way| way.dnp_m),
    );
    let inner = match from {
        _ if count == 2 => return last_m - first_m,
        0 => 1,
        _ => from,
    };
    let mut begin = 0.0;
    let mut places = vec![];
    for road in roads {
        let road = &network.roads[*road];
        let projection = measure::project(reference.points[inner].at, &road.line);
        let at_m = begin + projection.along_m;
        places.push((
            projection.distance_m,
            if from == 0 {
                at_m - first_m
            } else {
                last_m - at_m
            },
        ));
        begin += road.length_m;
    }
    let nearest = places
        .iter()
        .map(|place| place.0)
        .fold(f64::INFINITY, f64::min);
    let lengths = places
        .iter()
        .filter(|place| place.0 <= nearest + SAME_M)
        .map(|place| place.1);
    let best = lengths.min_by(|a, b| (a - dnp_m).abs().total_cmp(&(b - dnp_m).abs()));
    best.expect("a path has roads").max(0.0)
}
