//! One call: the original Rust on what a sheet holds, and the place where a heap is used up.

use crate::answer::{Answer, Match, Outcome};
use crate::judge;
use counted_std::Search;
use geo::Place;
use openlr::LocationReference;
use openlr_decoder::candidates::CandidateConfig;
use openlr_decoder::decoder::{DecodeError, DecodedPath, Decoder, DecoderConfig};
use openlr_decoder::graph::{Edge, RoadNetwork, RoadNetworkBuilder};
use openlr_decoder::road_class::{Fow, Frc};
use openlr_decoder::spatial::SpatialIndex;
use petgraph::graph::NodeIndex;
use sheets::{Areas, Settings, Sheet};

/// The original's network, index and settings for a sheet.
pub struct Original {
    network: RoadNetwork,
    spatial: SpatialIndex,
    config: DecoderConfig,
}

impl Original {
    /// Lends the sheet to the stand-ins, which answer from the one lent last.
    pub fn of(sheet: &Sheet) -> Original {
        lend(sheet);
        Original {
            network: network(sheet),
            spatial: SpatialIndex::of_rows(),
            config: config(&sheet.settings),
        }
    }

    pub fn decoder(&self) -> Decoder<'_> {
        Decoder::new(&self.network, &self.spatial).with_config(self.config.clone())
    }
}

/// What the original answers with a heap that grows, and the searches it made.
pub struct Decoded {
    pub outcome: Outcome,
    pub searches: Vec<Search>,
}

impl Decoded {
    pub fn of(sheet: &Sheet) -> Decoded {
        let original = Original::of(sheet);
        lend_reference(sheet, 1);
        counted_std::take_searches();
        let result = original.decoder().decode("");
        let searches = counted_std::take_searches();
        let outcome = match result {
            Ok(path) => matched(path),
            Err(error) => refused(error),
        };
        Decoded { outcome, searches }
    }

    /// The same with a heap of that many slots: the first search with more entries ends the call.
    pub fn with_heap(self, slots: usize) -> Outcome {
        match self.searches.iter().find(|s| s.entries > slots) {
            Some(full) => Outcome::refused(11, full.leg, 0),
            None => self.outcome,
        }
    }

    /// The entries of the largest search, 0 without one.
    pub fn most_entries(&self) -> usize {
        self.searches.iter().map(|s| s.entries).max().unwrap_or(0)
    }
}

/// What a call on any bytes with any areas must answer.
pub fn call(bytes: &[u8], areas: &Areas) -> Outcome {
    match judge::refusal(bytes, areas) {
        Some((number, a)) => Outcome::refused(number, a, 0),
        None => Decoded::of(&Sheet::read(bytes)).with_heap(areas.heap()),
    }
}

/// Lends the reference for so many calls.
pub fn lend_reference(sheet: &Sheet, calls: usize) {
    openlr::lend((0..calls).map(|_| reference(sheet)).collect());
}

/// Lends everything measured to the stand-ins.
fn lend(sheet: &Sheet) {
    let row = |r: &sheets::Row| measured::Row {
        road: r.road,
        distance: r.distance,
        bearing: r.bearing,
        along: r.along,
        length: r.length,
    };
    let rows = |p: &sheets::Point| p.rows.iter().map(row).collect();
    measured::lend(sheet.points.iter().map(rows).collect());
    let mut to_goal = vec![vec![]; sheet.nodes];
    for (node, distances) in &sheet.goals {
        to_goal[*node] = distances.clone();
    }
    geo::lend(geo::Distances {
        from_first: sheet.from_first.clone(),
        from_last: sheet.from_last.clone(),
        to_goal,
    });
}

fn reference(sheet: &Sheet) -> LocationReference {
    let points = openlr::Points(sheet.points.iter().enumerate().map(point).collect());
    match sheet.kind {
        1 => LocationReference::Line(openlr::Line { points }),
        2 => LocationReference::PointAlongLine(openlr::PointAlongLine { points }),
        3 => LocationReference::GeoCoordinate(()),
        4 => LocationReference::Poi(()),
        5 => LocationReference::Circle(()),
        6 => LocationReference::Rectangle(()),
        7 => LocationReference::Grid(()),
        8 => LocationReference::Polygon(()),
        9 => LocationReference::ClosedLine(()),
        kind => panic!("kind {kind} is refused before"),
    }
}

fn point((number, p): (usize, &sheets::Point)) -> openlr::Point {
    let place = Place::Location(number).point();
    openlr::Point {
        coordinate: openlr::Coordinate {
            lon: place.x(),
            lat: place.y(),
        },
        line: openlr::LineAttributes {
            bearing: openlr::Bearing(p.bearing),
            frc: openlr::Class(p.frc as i8),
            fow: openlr::Class(p.fow as i8),
        },
        path: p.limit.map(|limit| openlr::PathAttributes {
            dnp: openlr::Metres(p.dnp),
            lfrcnp: openlr::Class(limit as i8),
        }),
    }
}

fn network(sheet: &Sheet) -> RoadNetwork {
    let mut builder = RoadNetworkBuilder::with_capacity(sheet.nodes, sheet.roads.len());
    for node in 0..sheet.nodes {
        builder.get_or_add_node(node as i64, Place::Node(node).point());
    }
    for (number, road) in sheet.roads.iter().enumerate() {
        let edge = Edge {
            id: road.id,
            geometry: geo::geometry_of(number),
            length_m: road.length,
            frc: Frc::from_u8(road.frc),
            fow: Fow::from_u8(road.fow),
            is_access_road: road.access,
        };
        let (source, target) = (NodeIndex::new(road.source), NodeIndex::new(road.target));
        builder.add_edge(source, target, edge);
    }
    let mut network = builder.finish();
    network.graph.set_lists(sheet.lists.clone());
    network
}

fn config(s: &Settings) -> DecoderConfig {
    DecoderConfig {
        candidate_config: CandidateConfig {
            search_radius_m: s.search_radius,
            max_bearing_diff: s.greatest_bearing_difference,
            frc_tolerance: s.frc_tolerance,
            max_candidates: s.most_candidates as usize,
            max_candidate_distance_m: s.greatest_candidate_distance,
            distance_weight: s.distance_weight,
            bearing_weight: s.bearing_weight,
            frc_weight: s.frc_weight,
            fow_weight: s.fow_weight,
        },
        length_tolerance: s.length_tolerance,
        absolute_length_tolerance: s.absolute_tolerance,
        max_search_distance_factor: s.search_factor,
        slip_road_cost_penalty: s.slip_penalty,
        access_road_cost_penalty: s.access_penalty,
        snap_to_valid_nodes: s.snap,
        max_snap_extension_m: s.snap_extension,
    }
}

fn matched(path: DecodedPath) -> Outcome {
    Outcome {
        answer: Answer::Matched(Match {
            count: path.edge_ids.len(),
            length: path.length_m.to_bits(),
            start_offset: path.positive_offset_m.to_bits(),
            start_fraction: path.positive_offset_fraction.to_bits(),
            end_offset: path.negative_offset_m.to_bits(),
            end_fraction: path.negative_offset_fraction.to_bits(),
            primary: path.primary_edge_id,
            coverage: path.primary_edge_coverage_m.to_bits(),
        }),
        ids: path.edge_ids,
        lengths: path.edge_lengths_m.iter().map(|l| l.to_bits()).collect(),
    }
}

/// The original's names of kinds 3 to 9.
const UNSUPPORTED: [&str; 7] = [
    "GeoCoordinate",
    "Poi",
    "Circle",
    "Rectangle",
    "Grid",
    "Polygon",
    "ClosedLine",
];

fn refused(error: DecodeError) -> Outcome {
    match error {
        DecodeError::UnsupportedType(name) => {
            let place = UNSUPPORTED.iter().position(|n| *n == name);
            Outcome::refused(7, 3 + place.expect("a kind of the table"), 0)
        }
        DecodeError::Deserialize(_) => Outcome::refused(8, 0, 0),
        DecodeError::NoCandidates { index } => Outcome::refused(9, index, 0),
        DecodeError::NoPath { from, to } => Outcome::refused(10, from, to),
        DecodeError::LengthMismatch { .. } => panic!("the original never makes this error"),
    }
}
