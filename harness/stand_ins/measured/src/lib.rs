//! `crate::spatial` as decoder.rs and candidates.rs see it: the published spatial.rs, but for what a host measures.
//! Which roads are near a point, where it projects and which bearing the road has there come from a sheet's rows.

pub use road_network::spatial::{
    bearing_difference, BearingDirection, EdgeEnvelope, LineProjection,
};

use geo::{LineString, Place, Point};
use petgraph::graph::EdgeIndex;
use std::cell::{Cell, RefCell};

/// A row of a sheet.
#[derive(Debug, Clone, Copy)]
pub struct Row {
    pub road: usize,
    pub distance: f64,
    pub bearing: f64,
    pub along: f64,
    pub length: f64,
}

/// The rows of a point, and for each road up to the last one with a row: its row, or one past the rows.
struct Rows {
    rows: Vec<Row>,
    of_road: Vec<usize>,
}

impl Rows {
    fn new(rows: Vec<Row>) -> Rows {
        let roads = rows.iter().map(|row| row.road + 1).max().unwrap_or(0);
        let mut of_road = vec![rows.len(); roads];
        for (i, row) in rows.iter().enumerate() {
            of_road[row.road] = i;
        }
        Rows { rows, of_road }
    }

    fn of(&self, road: usize) -> Option<Row> {
        self.rows.get(*self.of_road.get(road)?).copied()
    }
}

thread_local! {
    /// The rows of each point.
    static ROWS: RefCell<Vec<Rows>> = const { RefCell::new(Vec::new()) };
    /// The bearing of the row that was projected last.
    static BEARING: Cell<f64> = const { Cell::new(0.0) };
}

/// From now on the functions here answer from these.
pub fn lend(rows: Vec<Vec<Row>>) {
    let rows = rows.into_iter().map(Rows::new).collect();
    ROWS.with(|r| r.replace(rows));
}

fn number_of(point: Point<f64>) -> usize {
    match Place::of(point) {
        Place::Location(i) => i,
        Place::Node(_) => panic!("rows belong to location points"),
    }
}

pub struct SpatialIndex {
    near: Vec<Vec<EdgeEnvelope>>,
}

impl SpatialIndex {
    /// The roads near each point by the lent rows, the last row first: the order must not matter.
    pub fn of_rows() -> Self {
        let envelope = |row: &Row| {
            let geometry = geo::geometry_of(row.road);
            EdgeEnvelope::new(EdgeIndex::new(row.road), &geometry)
        };
        let near = ROWS.with(|r| {
            let points = r.borrow();
            let near = points
                .iter()
                .map(|point| point.rows.iter().rev().map(envelope).collect());
            near.collect()
        });
        SpatialIndex { near }
    }

    pub fn find_nearby(&self, center: Point<f64>, _radius_m: f64) -> Vec<&EdgeEnvelope> {
        self.near[number_of(center)].iter().collect()
    }
}

pub fn project_onto_line(point: Point<f64>, line: &LineString<f64>) -> Option<LineProjection> {
    let road = geo::road_of(line);
    let row = ROWS.with(|r| r.borrow()[number_of(point)].of(road))?;
    BEARING.with(|b| b.set(row.bearing));
    Some(LineProjection {
        point,
        distance_m: row.distance,
        along_m: row.along,
        length_m: row.length,
    })
}

/// The bearing of the row that was projected last: candidates.rs asks for the projection first.
pub fn bearing_along(
    _line: &LineString<f64>,
    _along_m: f64,
    _chord_m: f64,
    _direction: BearingDirection,
) -> f64 {
    BEARING.with(|b| b.get())
}
