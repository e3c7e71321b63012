//! A location reference in degrees and metres, apart from any format.

use crate::measure::Place;
use hemokatu::Kind;

/// A reference. One of another kind than line or point along line has its kind alone.
#[derive(Debug, Clone, PartialEq)]
pub struct Reference {
    pub kind: Kind,
    pub points: Vec<LocationPoint>,
    /// The part of the first leg after which the location begins, below 1; of a point along line, where it lies.
    pub start_offset: Option<f64>,
    /// The part of the last leg before the end of which the location ends.
    pub end_offset: Option<f64>,
    /// Of a point along line: 0 unknown, 1 from the first point to the second, 2 the other way, 3 both.
    pub orientation: u8,
    /// Of a point along line: 0 on the road or unknown, 1 right, 2 left, 3 both.
    pub side: u8,
}

#[derive(Debug, Clone, PartialEq)]
pub struct LocationPoint {
    pub at: Place,
    pub frc: u8,
    pub fow: u8,
    /// Degrees from 0 to 360.
    pub bearing: f64,
    /// None at the last point.
    pub way: Option<Way>,
}

/// What a point says of the way to the next one.
#[derive(Debug, Clone, Copy, PartialEq)]
pub struct Way {
    /// The lowest class on the way.
    pub lfrcnp: u8,
    pub dnp_m: f64,
}

impl Reference {
    /// A reference of this kind without points.
    pub fn of(kind: Kind) -> Reference {
        Reference {
            kind,
            points: vec![],
            start_offset: None,
            end_offset: None,
            orientation: 0,
            side: 0,
        }
    }

    /// Turns the bearing of the last point round: senders that follow the White Paper point it back along the line, and
    /// the decoder wants it in the direction of travel.
    pub fn turn_last_bearing(&mut self) {
        if let Some(last) = self.points.last_mut() {
            last.bearing = (last.bearing + 180.0) % 360.0;
        }
    }
}
