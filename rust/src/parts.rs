//! The parts that a sheet is built from.

use std::fmt;

/// The kind of a reference. Lines and points along line are decoded, all others are refused.
#[derive(Debug, Clone, Copy, PartialEq, Eq, Hash)]
pub enum Kind {
    /// A line.
    Line = 1,
    /// A point along line, which has two points.
    PointAlongLine = 2,
    /// A geo coordinate.
    GeoCoordinate = 3,
    /// A point of interest with its access.
    Poi = 4,
    /// A circle.
    Circle = 5,
    /// A rectangle.
    Rectangle = 6,
    /// A grid.
    Grid = 7,
    /// A polygon.
    Polygon = 8,
    /// A closed line.
    ClosedLine = 9,
}

impl Kind {
    const ALL: [Kind; 9] = [
        Kind::Line,
        Kind::PointAlongLine,
        Kind::GeoCoordinate,
        Kind::Poi,
        Kind::Circle,
        Kind::Rectangle,
        Kind::Grid,
        Kind::Polygon,
        Kind::ClosedLine,
    ];

    /// The kind of a number on a sheet; None unless it is from 1 to 9.
    pub fn of(number: usize) -> Option<Kind> {
        Kind::ALL.into_iter().find(|kind| *kind as usize == number)
    }
}

impl fmt::Display for Kind {
    fn fmt(&self, f: &mut fmt::Formatter<'_>) -> fmt::Result {
        f.write_str(match self {
            Kind::Line => "line",
            Kind::PointAlongLine => "point along line",
            Kind::GeoCoordinate => "geo coordinate",
            Kind::Poi => "point of interest",
            Kind::Circle => "circle",
            Kind::Rectangle => "rectangle",
            Kind::Grid => "grid",
            Kind::Polygon => "polygon",
            Kind::ClosedLine => "closed line",
        })
    }
}

/// The settings of one call, with the names and the defaults of the original decoder; metres and degrees are marked.
///
/// More settings may come, so they are made from the defaults:
///
/// ```
/// use hemokatu::Settings;
///
/// let settings = Settings::default().with(|s| {
///     s.snap_to_valid_nodes = false;
///     s.max_candidates = 20;
/// });
/// assert_eq!(settings.search_radius_m, 100.0);
/// ```
#[derive(Debug, Clone, Copy, PartialEq)]
#[non_exhaustive]
pub struct Settings {
    /// A road farther from a point is no candidate; the scale of the distance penalty. 100.
    pub search_radius_m: f64,
    /// A road whose bearing differs by more degrees is no candidate; the scale of the bearing penalty. 90.
    pub max_bearing_diff_deg: f64,
    /// One point at least has a candidate as near as this. 35.
    pub max_candidate_distance_m: f64,
    /// Weight of the distance in a candidate's score. 10.
    pub distance_weight: f64,
    /// Weight of the bearing difference. 0.2.
    pub bearing_weight: f64,
    /// Weight of the class difference. 0.1.
    pub frc_weight: f64,
    /// Weight of the form of way. 0.1.
    pub fow_weight: f64,
    /// By what part of its DNP a leg may differ from it; the looser of this and the next holds. 0.35.
    pub length_tolerance: f64,
    /// By how many metres a leg may differ from its DNP. 100.
    pub absolute_length_tolerance_m: f64,
    /// A leg is searched up to this multiple of its DNP, and at least 500 m. 2.
    pub max_search_distance_factor: f64,
    /// Metres that a slip road costs a search beside its length. 20.
    pub slip_road_cost_penalty_m: f64,
    /// Metres that an access road costs a search beside its length. 10.
    pub access_road_cost_penalty_m: f64,
    /// The most metres that an end is walked on to a valid node. 25.
    pub max_snap_extension_m: f64,
    /// By how many classes a candidate may differ from its point, and by how many a leg's limit is raised. 2.
    pub frc_tolerance: u8,
    /// Whether ends are walked on to valid nodes; if not, only by roads of length 0. true.
    pub snap_to_valid_nodes: bool,
    /// How many candidates of a point are kept, up to 64. 10.
    pub max_candidates: u16,
}

impl Default for Settings {
    fn default() -> Self {
        Settings {
            search_radius_m: 100.0,
            max_bearing_diff_deg: 90.0,
            max_candidate_distance_m: 35.0,
            distance_weight: 10.0,
            bearing_weight: 0.2,
            frc_weight: 0.1,
            fow_weight: 0.1,
            length_tolerance: 0.35,
            absolute_length_tolerance_m: 100.0,
            max_search_distance_factor: 2.0,
            slip_road_cost_penalty_m: 20.0,
            access_road_cost_penalty_m: 10.0,
            max_snap_extension_m: 25.0,
            frc_tolerance: 2,
            snap_to_valid_nodes: true,
            max_candidates: 10,
        }
    }
}

impl Settings {
    /// These settings with some changed.
    pub fn with(mut self, change: impl FnOnce(&mut Settings)) -> Settings {
        change(&mut self);
        self
    }
}

/// A location reference point. `docs/MEASURE.md` says how its numbers are measured; the last one's bearing is in the
/// direction of travel.
#[derive(Debug, Clone, PartialEq)]
pub struct Point {
    /// Degrees, 0 to 360.
    pub bearing_deg: u16,
    /// Road class, 0 to 7.
    pub frc: u8,
    /// Form of way, 0 to 7.
    pub fow: u8,
    /// What is said of the way to the next point; None at the last one.
    pub path: Option<PathEntry>,
    /// The roads near it, up to 64, each once, in any order.
    pub rows: Vec<Row>,
}

/// What a point says of the way to the next one.
#[derive(Debug, Clone, Copy, PartialEq)]
pub struct PathEntry {
    /// The lowest class on the way to the next point, 0 to 7.
    pub lfrcnp: u8,
    /// The distance to the next point in metres.
    pub dnp_m: f64,
}

/// A point measured against a road. `docs/MEASURE.md` says how, and which roads get a row.
#[derive(Debug, Clone, Copy, PartialEq)]
pub struct Row {
    /// The road's number.
    pub road: usize,
    /// Metres from the point to the road.
    pub distance_m: f64,
    /// The road's bearing at the projection, 0 to 360 degrees.
    pub bearing_deg: f64,
    /// Metres along the road's line to the projection.
    pub along_m: f64,
    /// Metres of the whole line.
    pub line_length_m: f64,
}

/// A directed road.
///
/// More fields may come; `..Road::default()` leaves room for them, and has zeros and no access road for what is not named.
#[derive(Debug, Clone, Copy, PartialEq, Default)]
pub struct Road {
    /// What the answer calls it.
    pub id: u64,
    /// Its length in metres.
    pub length_m: f64,
    /// The node it leaves.
    pub source: usize,
    /// The node it leads to.
    pub target: usize,
    /// Road class, 0 to 7.
    pub frc: u8,
    /// Form of way, 0 to 7; 6 is a slip road.
    pub fow: u8,
    /// Whether it is an access road: residential, living_street, service or track.
    pub access: bool,
}
