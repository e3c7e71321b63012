//! What decoder.rs uses of `openlr`: a reference of any kind, lent instead of read from base64.

use std::cell::RefCell;
use std::ops::{Deref, Index};

#[derive(Debug)]
pub struct NothingLent;

#[derive(Debug)]
pub enum LocationReference {
    Line(Line),
    PointAlongLine(PointAlongLine),
    GeoCoordinate(()),
    Poi(()),
    Circle(()),
    Rectangle(()),
    Grid(()),
    Polygon(()),
    ClosedLine(()),
}

#[derive(Debug)]
pub struct Line {
    pub points: Points,
}

#[derive(Debug)]
pub struct PointAlongLine {
    pub points: Points,
}

/// The points of a reference. The decoder reads `points[i].path` first in leg i, so the index tells the leg to the counter of heap entries.
#[derive(Debug)]
pub struct Points(pub Vec<Point>);

impl Deref for Points {
    type Target = [Point];

    fn deref(&self) -> &[Point] {
        &self.0
    }
}

impl Index<usize> for Points {
    type Output = Point;

    fn index(&self, i: usize) -> &Point {
        counted_std::enter_leg(i);
        &self.0[i]
    }
}

#[derive(Debug)]
pub struct Point {
    pub coordinate: Coordinate,
    pub line: LineAttributes,
    pub path: Option<PathAttributes>,
}

#[derive(Debug)]
pub struct Coordinate {
    pub lon: f64,
    pub lat: f64,
}

#[derive(Debug)]
pub struct LineAttributes {
    pub bearing: Bearing,
    pub frc: Class,
    pub fow: Class,
}

#[derive(Debug)]
pub struct PathAttributes {
    pub dnp: Metres,
    pub lfrcnp: Class,
}

#[derive(Debug)]
pub struct Bearing(pub u16);

impl Bearing {
    pub fn degrees(&self) -> u16 {
        self.0
    }
}

/// An FRC or FOW.
#[derive(Debug)]
pub struct Class(pub i8);

impl Class {
    pub fn value(&self) -> i8 {
        self.0
    }
}

#[derive(Debug)]
pub struct Metres(pub f64);

impl Metres {
    pub fn meters(&self) -> f64 {
        self.0
    }
}

thread_local! {
    static LENT: RefCell<Vec<LocationReference>> = const { RefCell::new(Vec::new()) };
}

/// What the next deserialisations yield, the last one first.
pub fn lend(references: Vec<LocationReference>) {
    LENT.with(|l| l.replace(references));
}

pub fn deserialize_base64_openlr(_base64: &str) -> Result<LocationReference, NothingLent> {
    LENT.with(|l| l.borrow_mut().pop()).ok_or(NothingLent)
}
