//! Roads on a plane, straight and in metres, and what a host measures of them: enough for samples.

use hemokatu::{Kind, PathEntry, Point, Road, Row, SheetBuilder};

pub type Place = (f64, f64);

/// Nodes by their places, and roads between them.
pub struct Plane {
    pub nodes: Vec<Place>,
    pub roads: Vec<Road>,
}

/// A point of a reference: where it is, its bearing, and the metres to the next point.
pub struct Mark {
    pub at: Place,
    pub bearing_deg: u16,
    pub dnp_m: Option<f64>,
}

/// Roads up to so many metres from a point get a row.
const RADIUS_M: f64 = 100.0;

impl Plane {
    pub fn new(nodes: Vec<Place>) -> Plane {
        let roads = vec![];
        Plane { nodes, roads }
    }

    /// A road of class 3 and form 3, as long as its line.
    pub fn road(&mut self, id: u64, source: usize, target: usize) {
        self.roads.push(Road {
            id,
            length_m: distance(self.nodes[source], self.nodes[target]),
            source,
            target,
            frc: 3,
            fow: 3,
            ..Road::default()
        });
    }

    pub fn both_ways(&mut self, id: u64, one: usize, other: usize) {
        self.road(id, one, other);
        self.road(id + 1, other, one);
    }

    pub fn sheet(&self, kind: Kind, marks: &[Mark]) -> SheetBuilder {
        let mut sheet = SheetBuilder::new(kind, self.nodes.len());
        for road in &self.roads {
            sheet.road(*road);
        }
        for mark in marks {
            sheet.point(Point {
                bearing_deg: mark.bearing_deg,
                frc: 3,
                fow: 3,
                path: mark.dnp_m.map(|dnp_m| PathEntry { lfrcnp: 3, dnp_m }),
                rows: self.rows(mark.at),
            });
        }
        let ends = [marks.first(), marks.last()].map(|mark| mark.map_or((0.0, 0.0), |m| m.at));
        sheet.from_first(self.distances(ends[0]));
        sheet.from_last(self.distances(ends[1]));
        for goal in sheet.goal_nodes() {
            sheet.goal(goal, self.distances(self.nodes[goal]));
        }
        sheet
    }

    /// To every node, as the crow flies.
    fn distances(&self, from: Place) -> Vec<f64> {
        let to = |node: &Place| distance(from, *node);
        self.nodes.iter().map(to).collect()
    }

    fn rows(&self, at: Place) -> Vec<Row> {
        let roads = self.roads.iter().enumerate();
        let rows = roads.map(|(number, road)| {
            let (a, b) = (self.nodes[road.source], self.nodes[road.target]);
            let (along_m, distance_m) = project(at, a, b);
            Row {
                road: number,
                distance_m,
                bearing_deg: bearing(a, b),
                along_m,
                line_length_m: road.length_m,
            }
        });
        rows.filter(|row| row.distance_m <= RADIUS_M).collect()
    }
}

fn distance(a: Place, b: Place) -> f64 {
    ((b.0 - a.0).powi(2) + (b.1 - a.1).powi(2)).sqrt()
}

/// Degrees from north, eastward.
fn bearing(a: Place, b: Place) -> f64 {
    (b.0 - a.0).atan2(b.1 - a.1).to_degrees().rem_euclid(360.0)
}

/// The metres along the line from a to b up to the place nearest to p, and the distance of that place.
fn project(p: Place, a: Place, b: Place) -> (f64, f64) {
    let length = distance(a, b);
    let along = ((p.0 - a.0) * (b.0 - a.0) + (p.1 - a.1) * (b.1 - a.1)) / length;
    let along = along.clamp(0.0, length);
    let part = along / length;
    let foot = (a.0 + part * (b.0 - a.0), a.1 + part * (b.1 - a.1));
    (along, distance(p, foot))
}
