//! What spatial.rs uses of `geo`, with places on earth. The formula of `Haversine` is from knowledge of that crate.

#[derive(Debug, Clone, Copy, PartialEq)]
pub struct Coord<T> {
    pub x: T,
    pub y: T,
}

impl From<Coord<f64>> for [f64; 2] {
    fn from(c: Coord<f64>) -> Self {
        [c.x, c.y]
    }
}

#[derive(Debug, Clone, Copy, PartialEq)]
pub struct Point<T>(pub Coord<T>);

impl<T: Copy> Point<T> {
    pub fn new(x: T, y: T) -> Self {
        Point(Coord { x, y })
    }

    pub fn x(&self) -> T {
        self.0.x
    }

    pub fn y(&self) -> T {
        self.0.y
    }
}

impl<T> From<Coord<T>> for Point<T> {
    fn from(c: Coord<T>) -> Self {
        Point(c)
    }
}

#[derive(Debug, Clone, PartialEq)]
pub struct LineString<T>(pub Vec<Coord<T>>);

pub struct Haversine;

pub trait Distance {
    fn distance(&self, from: Point<f64>, to: Point<f64>) -> f64;
}

impl Distance for Haversine {
    fn distance(&self, from: Point<f64>, to: Point<f64>) -> f64 {
        let theta1 = from.y().to_radians();
        let theta2 = to.y().to_radians();
        let delta_theta = (to.y() - from.y()).to_radians();
        let delta_lambda = (to.x() - from.x()).to_radians();
        let a = (delta_theta / 2.0).sin().powi(2)
            + theta1.cos() * theta2.cos() * (delta_lambda / 2.0).sin().powi(2);
        let c = 2.0 * a.sqrt().asin();
        6_371_008.8 * c
    }
}

pub struct Rect {
    min: Coord<f64>,
    max: Coord<f64>,
}

impl Rect {
    pub fn min(&self) -> Coord<f64> {
        self.min
    }

    pub fn max(&self) -> Coord<f64> {
        self.max
    }
}

pub trait BoundingRect {
    fn bounding_rect(&self) -> Option<Rect>;
}

impl BoundingRect for LineString<f64> {
    fn bounding_rect(&self) -> Option<Rect> {
        let first = *self.0.first()?;
        let mut rect = Rect {
            min: first,
            max: first,
        };
        for c in &self.0 {
            rect.min.x = rect.min.x.min(c.x);
            rect.min.y = rect.min.y.min(c.y);
            rect.max.x = rect.max.x.max(c.x);
            rect.max.y = rect.max.y.max(c.y);
        }
        Some(rect)
    }
}
