//! The bytes of a sheet, record by record.

use crate::layout::{network_size, Counts, NO_PATH};
use crate::{Point, Road, Row, Settings};

/// The fields of the records, in the order of the tables in layout.rs.
pub struct Writer(Vec<u8>);

impl Writer {
    /// The header, written to the front of a vector whose contents go.
    pub fn header(counts: &Counts, mut into: Vec<u8>) -> Writer {
        let begins = counts.sections();
        into.clear();
        into.reserve_exact(begins.total);
        let mut writer = Writer(into);
        for word in [
            counts.kind,
            counts.points,
            counts.nodes,
            counts.roads,
            counts.rows,
            counts.goals,
        ] {
            writer.number(word);
        }
        begins
            .in_order()
            .into_iter()
            .for_each(|begin| writer.number(begin));
        writer.zeros(4);
        writer
    }

    /// Nothing yet, with room for so many nodes and roads.
    pub fn network(nodes: usize, roads: usize) -> Writer {
        Writer(Vec::with_capacity(network_size(nodes, roads)))
    }

    pub fn bytes(self) -> Vec<u8> {
        self.0
    }

    /// A u32; every number on a sheet is below a count.
    pub fn number(&mut self, number: usize) {
        self.0.extend_from_slice(&(number as u32).to_le_bytes());
    }

    pub fn reals(&mut self, list: &[f64]) {
        let begin = self.0.len();
        self.0.resize(begin + 8 * list.len(), 0);
        for (bytes, value) in self.0[begin..].chunks_exact_mut(8).zip(list) {
            bytes.copy_from_slice(&value.to_le_bytes());
        }
    }

    pub fn zeros(&mut self, count: usize) {
        self.0.resize(self.0.len() + count, 0);
    }

    pub fn settings(&mut self, s: &Settings) {
        self.reals(&[
            s.search_radius_m,
            s.max_bearing_diff_deg,
            s.max_candidate_distance_m,
            s.distance_weight,
            s.bearing_weight,
            s.frc_weight,
            s.fow_weight,
            s.length_tolerance,
            s.absolute_length_tolerance_m,
            s.max_search_distance_factor,
            s.slip_road_cost_penalty_m,
            s.access_road_cost_penalty_m,
            s.max_snap_extension_m,
        ]);
        self.0
            .extend([s.frc_tolerance, s.snap_to_valid_nodes as u8]);
        self.0.extend(s.max_candidates.to_le_bytes());
        self.zeros(4);
    }

    pub fn point(&mut self, p: &Point) {
        let (limit, dnp_m) = match p.path {
            Some(path) => (path.lfrcnp, path.dnp_m),
            None => (NO_PATH, 0.0),
        };
        self.reals(&[dnp_m]);
        self.0.extend(p.bearing_deg.to_le_bytes());
        self.0.extend([p.frc, p.fow, limit]);
        self.zeros(3);
        self.number(p.rows.len());
        self.zeros(4);
    }

    pub fn road(&mut self, r: &Road) {
        let mut bytes = [0; 32];
        bytes[..8].copy_from_slice(&r.id.to_le_bytes());
        bytes[8..16].copy_from_slice(&r.length_m.to_le_bytes());
        bytes[16..20].copy_from_slice(&(r.source as u32).to_le_bytes());
        bytes[20..24].copy_from_slice(&(r.target as u32).to_le_bytes());
        bytes[24..27].copy_from_slice(&[r.frc, r.fow, r.access as u8]);
        self.0.extend_from_slice(&bytes);
    }

    /// Roads and lists that are laid out.
    pub fn laid_out(&mut self, network: &[u8]) {
        self.0.extend_from_slice(network);
    }

    pub fn row(&mut self, r: &Row) {
        self.number(r.road);
        self.zeros(4);
        self.reals(&[r.distance_m, r.bearing_deg, r.along_m, r.line_length_m]);
    }
}
