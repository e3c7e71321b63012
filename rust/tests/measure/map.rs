//! Roads drawn as lines, and sheets measured from them.

use super::common::road;
use super::measure::{self, Place, Side, CHORD_M};
use hemokatu::{Decoder, Kind, PathEntry, Point, Row, SheetBuilder};

/// A place so many metres east and north of where equator and prime meridian cross.
pub fn at(east: f64, north: f64) -> Place {
    let degree = measure::EARTH_RADIUS_M.to_radians();
    Place {
        lon: east / degree,
        lat: north / degree,
    }
}

/// Roads between nodes, drawn as their lines.
pub struct Map {
    pub nodes: Vec<Place>,
    /// Id, source, target, and what lies between the two.
    pub roads: Vec<(u64, usize, usize, Vec<Place>)>,
}

impl Map {
    pub fn new(nodes: &[(f64, f64)], roads: &[(u64, usize, usize)]) -> Map {
        let straight = |&(id, source, target)| (id, source, target, vec![]);
        Map {
            nodes: nodes
                .iter()
                .map(|(east, north)| at(*east, *north))
                .collect(),
            roads: roads.iter().map(straight).collect(),
        }
    }

    pub fn line(&self, road: usize) -> Vec<Place> {
        let (_, source, target, between) = &self.roads[road];
        [&[self.nodes[*source]], &between[..], &[self.nodes[*target]]].concat()
    }

    /// The roads, each as long as its line, and the points with their distances as the crow flies.
    pub fn sheet(&self, points: Vec<(Place, Point)>) -> SheetBuilder {
        let mut sheet = SheetBuilder::new(Kind::Line, self.nodes.len());
        for (number, (id, source, target, _)) in self.roads.iter().enumerate() {
            let length_m = measure::length(&self.line(number));
            sheet.road(road(*id, length_m, *source, *target));
        }
        sheet.from_first(self.crow(points[0].0));
        sheet.from_last(self.crow(points[points.len() - 1].0));
        for (_, point) in points {
            sheet.point(point);
        }
        for goal in sheet.goal_nodes() {
            sheet.goal(goal, self.crow(self.nodes[goal]));
        }
        sheet
    }

    fn crow(&self, from: Place) -> Vec<f64> {
        let nodes = self.nodes.iter();
        nodes.map(|node| measure::distance(from, *node)).collect()
    }

    /// A row for every road within 100 m.
    fn rows(&self, place: Place, side: Side) -> Vec<Row> {
        let mut rows = vec![];
        for road in 0..self.roads.len() {
            let line = self.line(road);
            let projection = measure::project(place, &line);
            if projection.distance_m <= 100.0 {
                rows.push(Row {
                    road,
                    distance_m: projection.distance_m,
                    bearing_deg: measure::bearing_along(&line, projection.along_m, CHORD_M, side),
                    along_m: projection.along_m,
                    line_length_m: projection.line_m,
                });
            }
        }
        rows
    }

    pub fn first(&self, place: Place, bearing_deg: u16, dnp_m: f64) -> (Place, Point) {
        let path = Some(PathEntry { lfrcnp: 3, dnp_m });
        (
            place,
            point(bearing_deg, path, self.rows(place, Side::Forward)),
        )
    }

    pub fn last(&self, place: Place, bearing_deg: u16) -> (Place, Point) {
        (
            place,
            point(bearing_deg, None, self.rows(place, Side::Backward)),
        )
    }
}

pub fn point(bearing_deg: u16, path: Option<PathEntry>, rows: Vec<Row>) -> Point {
    Point {
        bearing_deg,
        frc: 3,
        fow: 3,
        path,
        rows,
    }
}

/// The ids, then length and end offset in whole metres.
pub fn decoded(sheet: &SheetBuilder) -> (Vec<u64>, f64, f64) {
    let bytes = sheet.build().expect("a well-formed sheet");
    let mut decoder = Decoder::new();
    let found = decoder.decode(&bytes).expect("a match");
    (
        found.ids.to_vec(),
        found.length_m.round(),
        found.end_offset_m.round(),
    )
}
