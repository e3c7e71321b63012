//! From a path of the network to a reference: points on nodes, so few and so far apart that the decoder finds the path again.

use crate::measure::{self, Side, CHORD_M};
use crate::reference::{LocationPoint, Reference, Way};
use crate::route::Routes;
use hemokatu::Kind;

/// The greatest distance to the next point that the format writes.
const MOST_DNP_M: f64 = 15_000.0;
/// The most points that a sheet has.
const MOST_POINTS: usize = 16;
/// A first or last road below this part of its leg is left to another leg: the decoder drops one below 0.03.
const LEAST_PART: f64 = 0.04;
/// A leg shorter than this costs: the steps of its distance are coarse, so that a wrong path may fit better.
const SHORT_M: f64 = 300.0;
/// A road this near to both points of a leg is taken outright by the decoder at 10 m; a point is up to 3 m off.
const SAME_ROAD_M: f64 = 13.0;

/// What is laid on a path beside the path itself.
#[derive(Debug, Clone, Copy, PartialEq)]
pub enum Location {
    /// A line that begins and ends so many metres inside of the path.
    Line { start_m: f64, end_m: f64 },
    /// A point so many metres along the path, with its side and its orientation.
    Point {
        at_m: f64,
        side: u8,
        orientation: u8,
    },
}

/// The roads that get points, and how many metres of them lie before and behind the location.
#[derive(Clone)]
struct Laid {
    roads: Vec<usize>,
    start_m: f64,
    end_m: f64,
}

/// The reference of a location on a path, which has a road at the least, or why there is none.
pub fn encode(routes: &Routes, path: &[usize], location: Location) -> Result<Reference, String> {
    let metres: f64 = path.iter().map(|road| routes.length(*road)).sum();
    let (start_m, end_m) = match location {
        Location::Line { start_m, end_m } => (start_m, end_m),
        Location::Point { at_m, .. } => (at_m, 0.0),
    };
    if start_m + end_m >= metres {
        return Err(format!(
            "nothing of its {metres:.1} m is left between the offsets"
        ));
    }
    let line = Laid {
        roads: path.to_vec(),
        start_m,
        end_m,
    };
    match location {
        Location::Line { .. } => line_of(routes, line.trimmed(routes)),
        Location::Point {
            side, orientation, ..
        } => {
            // All of the path if two points are enough for it, else the road on which the point lies.
            let of_all = line_of(
                routes,
                Laid {
                    end_m: 0.0,
                    ..line.clone()
                },
            );
            let mut reference = match of_all {
                Ok(reference) if reference.points.len() == 2 => reference,
                _ => line_of(routes, line.one_road(routes))?,
            };
            if reference.points.len() != 2 {
                return Err("two points are not enough for it".to_string());
            }
            reference.kind = Kind::PointAlongLine;
            // Where the location begins is where the point lies. At the very start it is written too.
            reference.start_offset = reference.start_offset.or(Some(0.0));
            reference.end_offset = None;
            (reference.side, reference.orientation) = (side, orientation);
            Ok(reference)
        }
    }
}

fn line_of(routes: &Routes, laid: Laid) -> Result<Reference, String> {
    // Where no first or last leg holds the roads that lead on to valid nodes, the path's own ends must do.
    let stretched = laid.stretched(routes);
    let (laid, cuts) = match cuts(routes, &stretched) {
        Some(cuts) => (stretched, cuts),
        None => {
            let cuts = cuts(routes, &laid).ok_or("no first or last leg holds the offsets")?;
            (laid, cuts)
        }
    };
    let (roads, points) = (&laid.roads, cuts.len());
    if points > MOST_POINTS {
        return Err(format!(
            "it needs {points} points, and a sheet has {MOST_POINTS} at the most"
        ));
    }
    let mut reference = Reference::of(Kind::Line);
    for leg in cuts.windows(2) {
        let next = roads.get(leg[1]).copied();
        let leg = &roads[leg[0]..leg[1]];
        reference.points.push(point(routes, leg, next));
    }
    let last = last_point(routes, roads[roads.len() - 1]);
    reference.points.push(last);
    let metres = |roads: &[usize]| roads.iter().map(|road| routes.length(*road)).sum::<f64>();
    reference.start_offset = offset(laid.start_m, metres(&roads[..cuts[1]]));
    reference.end_offset = offset(laid.end_m, metres(&roads[cuts[points - 2]..]));
    Ok(reference)
}

impl Laid {
    /// Without the roads at either end of which the location has nothing.
    fn trimmed(mut self, routes: &Routes) -> Laid {
        while self.start_m >= routes.length(self.roads[0]) {
            self.start_m -= routes.length(self.roads.remove(0));
        }
        while self.end_m >= routes.length(self.roads[self.roads.len() - 1]) {
            self.end_m -= self.roads.pop().map_or(0.0, |road| routes.length(road));
        }
        self
    }

    /// The road on which the location begins.
    fn one_road(self, routes: &Routes) -> Laid {
        let mut laid = self.trimmed(routes);
        laid.roads.truncate(1);
        laid
    }

    /// With the roads before and behind that lead to valid nodes.
    fn stretched(&self, routes: &Routes) -> Laid {
        let (before, behind) = (routes.before(&self.roads), routes.onward(&self.roads));
        let metres = |roads: &[usize]| roads.iter().map(|road| routes.length(*road)).sum::<f64>();
        Laid {
            roads: [&before[..], &self.roads, &behind].concat(),
            start_m: self.start_m + metres(&before),
            end_m: self.end_m + metres(&behind),
        }
    }
}

/// A part of a leg; None where it is nothing.
fn offset(part_m: f64, leg_m: f64) -> Option<f64> {
    (part_m > 0.0).then_some(part_m / leg_m)
}

/// Where legs begin and the last one ends: the cheapest choice of all, a leg costing 1 and more if it is short, or if it
/// begins at a node that suits a point badly.
fn cuts(routes: &Routes, laid: &Laid) -> Option<Vec<usize>> {
    let count = laid.roads.len();
    let mut best = vec![(f64::INFINITY, count); count + 1];
    best[count].0 = 0.0;
    for start in (0..count).rev() {
        let place = match start {
            0 => 1.0,
            _ => 1.0 + doubt(routes, laid.roads[start - 1], laid.roads[start]),
        };
        let ends = leg_ends(routes, laid, start);
        for (end, short) in ends {
            let cost = place + short + best[end].0;
            if cost < best[start].0 {
                best[start] = (cost, end);
            }
        }
    }
    let mut cuts = vec![0];
    while cuts[cuts.len() - 1] < count {
        let at = cuts[cuts.len() - 1];
        if best[at].0.is_infinite() {
            return None;
        }
        cuts.push(best[at].1);
    }
    Some(cuts)
}

/// How badly a point between two roads of the path sits: where their classes are so far apart that the decoder takes
/// neither for the end of the leg, at a node that is passed without a choice, or where another road comes in or goes out
/// in nearly the same direction as the path goes on, and may be taken for it.
fn doubt(routes: &Routes, road: usize, next: usize) -> f64 {
    const NEARLY: f64 = 40.0;
    let node = routes.ends(next).0;
    let line = |road: usize| &routes.host.network.roads[road].line;
    let ahead = |road| measure::bearing_along(line(road), 0.0, CHORD_M, Side::Forward);
    let behind =
        |road| measure::bearing_along(line(road), routes.length(road), CHORD_M, Side::Backward);
    let is_like = |bearing| measure::bearing_difference(bearing, ahead(next)) < NEARLY;
    let comes_in = routes
        .into(node)
        .iter()
        .any(|r| *r != road && is_like(behind(*r)));
    let goes_out = routes
        .out(node)
        .iter()
        .any(|r| *r != next && is_like(ahead(*r)));
    let class = |road| routes.host.network.street_of(road).frc;
    match (routes.is_valid(node), comes_in || goes_out) {
        _ if class(road).abs_diff(class(next)) > routes.host.settings.frc_tolerance => 2.0,
        (true, false) => 0.0,
        (true, true) => 0.7,
        (false, _) => 1.0,
    }
}

/// Where a leg that begins with a road may end, and what its shortness costs.
fn leg_ends(routes: &Routes, laid: &Laid, start: usize) -> Vec<(usize, f64)> {
    let roads = &laid.roads;
    let tree = routes.tree(routes.ends(roads[start]).0);
    let mut length = 0.0;
    let mut ends = vec![];
    for end in start + 1..=roads.len() {
        let leg = &roads[start..end];
        length += routes.length(leg[leg.len() - 1]);
        let holds_offsets =
            (start > 0 || length > laid.start_m) && (end < roads.len() || length > laid.end_m);
        if length >= MOST_DNP_M || !holds_offsets {
            continue;
        }
        if leg.len() == 1 || is_found(routes, leg, length, &tree) {
            ends.push((end, (1.0 - length / SHORT_M).max(0.0)));
        }
    }
    ends
}

/// Whether the decoder comes by a leg of two roads or more: it is the cheapest way from point to point, so that it does not
/// matter which of the roads at either point is taken for the point's; its first and last road are long enough to be
/// kept; and no road alone leads past both points.
fn is_found(routes: &Routes, leg: &[usize], length: f64, tree: &[Option<usize>]) -> bool {
    let (first, last) = (leg[0], leg[leg.len() - 1]);
    let cheapest = routes.path(tree, routes.ends(first).0, routes.ends(last).1);
    let is_long = |road: usize| routes.length(road) >= LEAST_PART * length;
    cheapest.is_some_and(|roads| roads == leg)
        && is_long(first)
        && is_long(last)
        && !has_short_cut(routes, first, last)
}

fn has_short_cut(routes: &Routes, first: usize, last: usize) -> bool {
    let network = routes.host.network;
    let (from, to) = (routes.ends(first).0, routes.ends(last).1);
    let (from, to) = (network.nodes[from].at, network.nodes[to].at);
    let around = [from, to].map(|place| measure::box_around(place, SAME_ROAD_M));
    network.roads.iter().enumerate().any(|(number, road)| {
        let is_near = around
            .iter()
            .all(|around| measure::meets(around, &road.bounds));
        if !is_near || !routes.host.is_open(number) {
            return false;
        }
        let [start, end] = [from, to].map(|place| measure::project(place, &road.line));
        start.distance_m <= SAME_ROAD_M
            && end.distance_m <= SAME_ROAD_M
            && start.along_m < end.along_m
    })
}

/// The point at the start of a leg. Its limit is the lowest class of the leg; but the decoder looks for the end of the leg on
/// the next leg's first road as well and takes none above limit and tolerance, so that road's class has a say too.
fn point(routes: &Routes, leg: &[usize], next: Option<usize>) -> LocationPoint {
    let road = &routes.host.network.roads[leg[0]];
    let street = routes.host.network.street_of(leg[0]);
    let length: f64 = leg.iter().map(|road| routes.length(*road)).sum();
    let class = |road: usize| routes.host.network.street_of(road).frc;
    let of_next = next.map_or(0, |road| {
        class(road).saturating_sub(routes.host.settings.frc_tolerance)
    });
    LocationPoint {
        at: road.line[0],
        frc: street.frc,
        fow: street.fow,
        bearing: measure::bearing_along(&road.line, 0.0, CHORD_M, Side::Forward),
        way: Some(Way {
            lfrcnp: leg.iter().map(|road| class(*road)).fold(of_next, u8::max),
            dnp_m: length,
        }),
    }
}

/// The point at the end of the last road. Its bearing is that of travel, as the original has it.
fn last_point(routes: &Routes, road: usize) -> LocationPoint {
    let street = routes.host.network.street_of(road);
    let line = &routes.host.network.roads[road].line;
    let length = measure::length(line);
    LocationPoint {
        at: line[line.len() - 1],
        frc: street.frc,
        fow: street.fow,
        bearing: measure::bearing_along(line, length, CHORD_M, Side::Backward),
        way: None,
    }
}
