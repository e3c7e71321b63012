//! From a reference and a network to a sheet: rows, the part of the network that can matter, distances (docs/MEASURE.md).

use crate::measure::{self, Place, Side, CHORD_M};
use crate::network::Network;
use crate::part::Part;
use crate::reference::{LocationPoint, Reference};
use hemokatu::{PathEntry, Point, Row, Settings, SheetBuilder};
use std::cell::{OnceCell, RefCell};
use std::collections::{BTreeSet, HashMap};
use std::rc::Rc;

/// The most rows of a point that a sheet has.
const MOST_ROWS: usize = 64;

/// What a host measures with.
pub struct Measurer<'a> {
    pub network: &'a Network,
    pub settings: Settings,
    /// Whether sheets have the part of the network that can matter, or all of it.
    pub cut: bool,
    closed: BTreeSet<u64>,
    /// All of it, which is the same for each reference.
    whole: OnceCell<Part>,
    /// The metres to nodes that were goals from every node: they are the same for each reference.
    goals: RefCell<HashMap<usize, Rc<[f64]>>>,
}

impl<'a> Measurer<'a> {
    pub fn new(network: &'a Network) -> Measurer<'a> {
        Measurer {
            network,
            settings: Settings::default(),
            cut: true,
            closed: BTreeSet::new(),
            whole: OnceCell::new(),
            goals: RefCell::default(),
        }
    }

    /// The ids of streets that are left out.
    pub fn closed(&self) -> &BTreeSet<u64> {
        &self.closed
    }

    pub fn close(&mut self, streets: BTreeSet<u64>) {
        self.closed = streets;
        self.whole.take();
    }

    pub fn is_open(&self, road: usize) -> bool {
        !self.closed.contains(&self.network.street_of(road).id)
    }

    /// The sheet of a reference.
    pub fn sheet(&self, reference: &Reference) -> Result<Vec<u8>, String> {
        let points = &reference.points;
        let mut rows = vec![];
        for (number, point) in points.iter().enumerate() {
            let side = match number + 1 == points.len() {
                true => Side::Backward,
                false => Side::Forward,
            };
            let near = self.rows(point, side);
            rows.push(
                self.fit(near, point)
                    .map_err(|e| format!("point {number}: {e}"))?,
            );
        }
        match self.cut {
            true => self.build(reference, &self.around(&self.inner(reference, &rows)), rows),
            false => self.build(reference, self.whole(), rows),
        }
    }

    /// A row for every open road within the search radius. Its road is the network's number, not yet the sheet's.
    fn rows(&self, point: &LocationPoint, side: Side) -> Vec<Row> {
        let radius = self.settings.search_radius_m;
        let around = measure::box_around(point.at, radius);
        let mut rows = vec![];
        for (number, road) in self.network.roads.iter().enumerate() {
            if !self.is_open(number) || !measure::meets(&around, &road.bounds) {
                continue;
            }
            let projection = measure::project(point.at, &road.line);
            if projection.distance_m <= radius {
                rows.push(Row {
                    road: number,
                    distance_m: projection.distance_m,
                    bearing_deg: measure::bearing_along(
                        &road.line,
                        projection.along_m,
                        CHORD_M,
                        side,
                    ),
                    along_m: projection.along_m,
                    line_length_m: projection.line_m,
                });
            }
        }
        rows
    }

    /// At most 64 rows: first those go that the decoder drops by itself, then the farthest, as long as none of them could
    /// be among the candidates that are kept.
    fn fit(&self, mut rows: Vec<Row>, point: &LocationPoint) -> Result<Vec<Row>, String> {
        if rows.len() <= MOST_ROWS {
            return Ok(rows);
        }
        let s = &self.settings;
        rows.retain(|row| {
            let street = self.network.street_of(row.road);
            let fits = street.frc.abs_diff(point.frc) <= s.frc_tolerance || street.fow == 6;
            let turn = measure::bearing_difference(degrees(point) as f64, row.bearing_deg);
            fits && turn <= s.max_bearing_diff_deg
        });
        if rows.len() <= MOST_ROWS {
            return Ok(rows);
        }
        rows.sort_by(|a, b| a.distance_m.total_cmp(&b.distance_m));
        let kept = rows[s.max_candidates.saturating_sub(1) as usize].distance_m;
        let classes = match s.frc_tolerance {
            0 => 0.0,
            tolerance => (7.0 / tolerance as f64).max(1.0),
        };
        let others = s.bearing_weight + s.frc_weight * classes + s.fow_weight;
        let metres = others * s.search_radius_m / s.distance_weight;
        if rows[MOST_ROWS].distance_m <= kept + metres {
            return Err(format!(
                "{} roads are near it, at most {MOST_ROWS} are possible",
                rows.len()
            ));
        }
        rows.truncate(MOST_ROWS);
        Ok(rows)
    }

    /// The nodes that a search or a walk at an end can come to: those as near to a leg's first point as its search is long,
    /// the ends of roads with a row, and what lies a walk farther. All their roads come along, so each is as valid as ever.
    fn inner(&self, reference: &Reference, rows: &[Vec<Row>]) -> BTreeSet<usize> {
        let s = &self.settings;
        let walk = s.max_snap_extension_m;
        let mut circles: Vec<(Place, f64)> = vec![];
        for point in &reference.points {
            if let Some(way) = point.way {
                let search = (way.dnp_m * s.max_search_distance_factor).max(500.0);
                circles.push((point.at, search + s.search_radius_m + walk));
            }
        }
        let mut ends = BTreeSet::new();
        for row in rows.iter().flatten() {
            let road = &self.network.roads[row.road];
            ends.extend(road.ends());
        }
        circles.extend(ends.iter().map(|node| (self.network.nodes[*node].at, walk)));
        let is_in = |node: &usize| {
            let at = self.network.nodes[*node].at;
            circles
                .iter()
                .any(|(centre, reach)| measure::distance(*centre, at) <= *reach)
        };
        (0..self.network.nodes.len()).filter(is_in).collect()
    }

    fn around(&self, inner: &BTreeSet<usize>) -> Part {
        Part::around(self.network, inner, |road| self.is_open(road))
    }

    fn whole(&self) -> &Part {
        let nodes = 0..self.network.nodes.len();
        self.whole.get_or_init(|| self.around(&nodes.collect()))
    }

    fn build(
        &self,
        reference: &Reference,
        part: &Part,
        rows: Vec<Vec<Row>>,
    ) -> Result<Vec<u8>, String> {
        let nodes = &part.nodes;
        let mut sheet = SheetBuilder::over(reference.kind, part.kept.clone());
        sheet.settings(self.settings);
        for (point, mut rows) in reference.points.iter().zip(rows) {
            for row in &mut rows {
                row.road = part.roads[&row.road];
            }
            sheet.point(Point {
                bearing_deg: degrees(point),
                frc: point.frc,
                fow: point.fow,
                path: point.way.map(|way| PathEntry {
                    lfrcnp: way.lfrcnp,
                    dnp_m: way.dnp_m,
                }),
                rows,
            });
        }
        let from = |place: Place| {
            nodes
                .iter()
                .map(|node| measure::distance(place, self.network.nodes[*node].at))
                .collect()
        };
        let (first, last) = (reference.points.first(), reference.points.last());
        sheet.from_first(first.map_or(vec![0.0; nodes.len()], |point| from(point.at)));
        sheet.from_last(last.map_or(vec![0.0; nodes.len()], |point| from(point.at)));
        for goal in sheet.goal_nodes() {
            let all = self.to_goal(nodes[goal]);
            sheet.goal(goal, nodes.iter().map(|node| all[*node]).collect());
        }
        sheet.build().map_err(|e| e.to_string())
    }

    fn to_goal(&self, goal: usize) -> Rc<[f64]> {
        let nodes = &self.network.nodes;
        let measured = || {
            nodes
                .iter()
                .map(|node| measure::distance(node.at, nodes[goal].at))
                .collect()
        };
        self.goals
            .borrow_mut()
            .entry(goal)
            .or_insert_with(measured)
            .clone()
    }
}

/// A sheet has a point's bearing in whole degrees. So has the crate that the original reads references with; how that one
/// rounds is not to be seen in the original.
fn degrees(point: &LocationPoint) -> u16 {
    point.bearing.round() as u16
}
