//! What the published files use of `geo`, with distances from a sheet.
//! A point is no place on earth but says which node or which location point it is.

use std::cell::RefCell;

#[derive(Debug, Clone, Copy, PartialEq)]
pub struct Coord<T> {
    pub x: T,
    pub y: T,
}

impl From<Coord<f64>> for [f64; 2] {
    fn from(c: Coord<f64>) -> Self {
        [c.x, c.y]
    }
}

#[derive(Debug, Clone, Copy, PartialEq)]
pub struct Point<T>(pub Coord<T>);

impl<T: Copy> Point<T> {
    pub fn new(x: T, y: T) -> Self {
        Point(Coord { x, y })
    }

    pub fn x(&self) -> T {
        self.0.x
    }

    pub fn y(&self) -> T {
        self.0.y
    }
}

impl<T> From<Coord<T>> for Point<T> {
    fn from(c: Coord<T>) -> Self {
        Point(c)
    }
}

/// What a point stands for: y is 0 for a node and 1 for a location point, x is its number.
#[derive(Debug, Clone, Copy, PartialEq, Eq)]
pub enum Place {
    Node(usize),
    Location(usize),
}

impl Place {
    pub fn point(self) -> Point<f64> {
        match self {
            Place::Node(i) => Point::new(i as f64, 0.0),
            Place::Location(i) => Point::new(i as f64, 1.0),
        }
    }

    pub fn of(point: Point<f64>) -> Place {
        let number = point.x() as usize;
        if point.y() == 0.0 {
            Place::Node(number)
        } else {
            Place::Location(number)
        }
    }
}

/// A road's geometry: one coordinate, whose x is the road's number.
#[derive(Debug, Clone, PartialEq)]
pub struct LineString<T>(pub Vec<Coord<T>>);

pub fn geometry_of(road: usize) -> LineString<f64> {
    LineString(vec![Coord {
        x: road as f64,
        y: 0.0,
    }])
}

pub fn road_of(geometry: &LineString<f64>) -> usize {
    geometry.0[0].x as usize
}

/// The distances section of a sheet.
#[derive(Debug, Clone, Default)]
pub struct Distances {
    pub from_first: Vec<f64>,
    pub from_last: Vec<f64>,
    /// By goal node; empty where it has no goal row.
    pub to_goal: Vec<Vec<f64>>,
}

thread_local! {
    static DISTANCES: RefCell<Distances> = RefCell::default();
}

/// From now on `Haversine` answers from these.
pub fn lend(distances: Distances) {
    DISTANCES.with(|d| d.replace(distances));
}

pub struct Haversine;

pub trait Distance {
    fn distance(&self, from: Point<f64>, to: Point<f64>) -> f64;
}

impl Distance for Haversine {
    fn distance(&self, from: Point<f64>, to: Point<f64>) -> f64 {
        DISTANCES.with(|d| {
            let d = d.borrow();
            match (Place::of(from), Place::of(to)) {
                (Place::Node(node), Place::Node(goal)) => d.to_goal[goal][node],
                (Place::Location(0), Place::Node(node)) => d.from_first[node],
                (Place::Location(_), Place::Node(node)) => d.from_last[node],
                (_, Place::Location(_)) => panic!("a sheet has no distance to a location point"),
            }
        })
    }
}

pub trait Length {
    fn length(&self, line: &LineString<f64>) -> f64;
}

impl Length for Haversine {
    fn length(&self, _line: &LineString<f64>) -> f64 {
        panic!("a road's length stands on the sheet")
    }
}

pub struct Rect(Coord<f64>);

impl Rect {
    pub fn min(&self) -> Coord<f64> {
        self.0
    }

    pub fn max(&self) -> Coord<f64> {
        self.0
    }
}

pub trait BoundingRect {
    fn bounding_rect(&self) -> Option<Rect>;
}

impl BoundingRect for LineString<f64> {
    fn bounding_rect(&self) -> Option<Rect> {
        self.0.first().copied().map(Rect)
    }
}
