//! A sheet as parts.

#[derive(Debug, Clone, PartialEq)]
pub struct Settings {
    pub search_radius: f64,
    pub greatest_bearing_difference: f64,
    pub greatest_candidate_distance: f64,
    pub distance_weight: f64,
    pub bearing_weight: f64,
    pub frc_weight: f64,
    pub fow_weight: f64,
    pub length_tolerance: f64,
    pub absolute_tolerance: f64,
    pub search_factor: f64,
    pub slip_penalty: f64,
    pub access_penalty: f64,
    pub snap_extension: f64,
    pub frc_tolerance: u8,
    pub snap: bool,
    pub most_candidates: u16,
}

/// The original's defaults.
impl Default for Settings {
    fn default() -> Self {
        Settings {
            search_radius: 100.0,
            greatest_bearing_difference: 90.0,
            greatest_candidate_distance: 35.0,
            distance_weight: 10.0,
            bearing_weight: 0.2,
            frc_weight: 0.1,
            fow_weight: 0.1,
            length_tolerance: 0.35,
            absolute_tolerance: 100.0,
            search_factor: 2.0,
            slip_penalty: 20.0,
            access_penalty: 10.0,
            snap_extension: 25.0,
            frc_tolerance: 2,
            snap: true,
            most_candidates: 10,
        }
    }
}

impl Settings {
    /// The 13 f64 in the sheet's order.
    pub fn numbers(&mut self) -> [&mut f64; 13] {
        [
            &mut self.search_radius,
            &mut self.greatest_bearing_difference,
            &mut self.greatest_candidate_distance,
            &mut self.distance_weight,
            &mut self.bearing_weight,
            &mut self.frc_weight,
            &mut self.fow_weight,
            &mut self.length_tolerance,
            &mut self.absolute_tolerance,
            &mut self.search_factor,
            &mut self.slip_penalty,
            &mut self.access_penalty,
            &mut self.snap_extension,
        ]
    }
}

#[derive(Debug, Clone, PartialEq)]
pub struct Point {
    pub dnp: f64,
    pub bearing: u16,
    pub frc: u8,
    pub fow: u8,
    /// None without a path entry.
    pub limit: Option<u8>,
    pub rows: Vec<Row>,
}

#[derive(Debug, Clone, PartialEq)]
pub struct Row {
    pub road: usize,
    pub distance: f64,
    pub bearing: f64,
    pub along: f64,
    pub length: f64,
}

#[derive(Debug, Clone, PartialEq)]
pub struct Road {
    pub id: u64,
    pub length: f64,
    pub source: usize,
    pub target: usize,
    pub frc: u8,
    pub fow: u8,
    pub access: bool,
}

#[derive(Debug, Clone, PartialEq)]
pub struct Sheet {
    pub kind: u32,
    pub nodes: usize,
    pub settings: Settings,
    pub points: Vec<Point>,
    pub roads: Vec<Road>,
    /// The roads leaving each node.
    pub lists: Vec<Vec<usize>>,
    pub from_first: Vec<f64>,
    pub from_last: Vec<f64>,
    /// Goal nodes, rising, with the distance from every node.
    pub goals: Vec<(usize, Vec<f64>)>,
}
