//! Sheets for the tests.
#![allow(dead_code)]

pub mod cases;
#[path = "../../examples/samples/plane.rs"]
pub mod plane;
#[path = "../../examples/samples/sheets.rs"]
pub mod samples;

use hemokatu::{Kind, PathEntry, Point, Row, SheetBuilder};
pub use samples::{road, row};

pub fn sample(name: &str) -> Vec<u8> {
    let path = format!("{}/../sheets/{name}.sheet", env!("CARGO_MANIFEST_DIR"));
    std::fs::read(path).unwrap()
}

pub fn point(rows: Vec<Row>) -> Point {
    Point {
        bearing_deg: 90,
        frc: 3,
        fow: 3,
        path: None,
        rows,
    }
}

pub fn point_to_next(dnp_m: f64, rows: Vec<Row>) -> Point {
    Point {
        path: Some(PathEntry { lfrcnp: 3, dnp_m }),
        ..point(rows)
    }
}

/// Distances of 0 wherever one is needed.
pub fn without_distances(sheet: &mut SheetBuilder, nodes: usize) {
    sheet.from_first(vec![0.0; nodes]);
    sheet.from_last(vec![0.0; nodes]);
    for goal in sheet.goal_nodes() {
        sheet.goal(goal, vec![0.0; nodes]);
    }
}

/// The road of S1 with these points; S1 to S4 all have a goal row of node 0.
pub fn one_road(points: Vec<Point>) -> SheetBuilder {
    let mut sheet = SheetBuilder::new(Kind::Line, 2);
    sheet.road(road(700, 100.0, 0, 1));
    for p in points {
        sheet.point(p);
    }
    without_distances(&mut sheet, 2);
    sheet.goal(0, vec![0.0; 2]);
    sheet
}

pub fn s1() -> SheetBuilder {
    one_road(vec![
        point_to_next(50.0, vec![row(0, 25.0)]),
        point(vec![row(0, 75.0)]),
    ])
}

/// Roads 700, 701, ... in a row, from the middle of the first to the middle of the last.
pub fn chain(roads: usize) -> SheetBuilder {
    let mut sheet = SheetBuilder::new(Kind::Line, roads + 1);
    for i in 0..roads {
        sheet.road(road(700 + i as u64, 100.0, i, i + 1));
    }
    let dnp = 100.0 * (roads - 1) as f64;
    sheet.point(point_to_next(dnp, vec![row(0, 50.0)]));
    sheet.point(point(vec![row(roads - 1, 50.0)]));
    without_distances(&mut sheet, roads + 1);
    sheet
}
