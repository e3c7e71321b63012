//! The roads of a sheet, laid out once for many references.

use crate::layout::{self, Counts};
use crate::writer::Writer;
use crate::{field_at, judge, BuildError, Kind, Refusal, Road, Settings};
use std::collections::BTreeMap;
use std::sync::OnceLock;

/// Roads between nodes, and the order in which they leave them.
///
/// It is laid out once, when the first sheet over it is built or by [`Network::check`]; every sheet after that copies the
/// bytes. [`SheetBuilder::over`](crate::SheetBuilder::over) takes it in an `Arc`, so threads can share it.
///
/// ```
/// use hemokatu::{Decoder, Kind, Network, PathEntry, Point, Road, Row, SheetBuilder};
/// use std::sync::Arc;
///
/// let mut network = Network::new(2);
/// let road = network.road(Road { id: 700, length_m: 100.0, source: 0, target: 1, frc: 3, fow: 3, ..Road::default() });
/// network.check()?;
///
/// let mut sheet = SheetBuilder::over(Kind::Line, Arc::new(network));
/// let mut decoder = Decoder::new();
/// for (from, to) in [(25.0, 75.0), (10.0, 90.0)] {
///     sheet.restart(Kind::Line);
///     let rows = |along_m| vec![Row { road, distance_m: 0.0, bearing_deg: 90.0, along_m, line_length_m: 100.0 }];
///     let path = Some(PathEntry { lfrcnp: 3, dnp_m: to - from });
///     sheet.point(Point { bearing_deg: 90, frc: 3, fow: 3, path, rows: rows(from) });
///     sheet.point(Point { bearing_deg: 90, frc: 3, fow: 3, path: None, rows: rows(to) });
///     sheet.from_first(vec![0.0; 2]);
///     sheet.from_last(vec![0.0; 2]);
///     for goal in sheet.goal_nodes() {
///         sheet.goal(goal, vec![0.0; 2]);
///     }
///     assert_eq!(decoder.decode(&sheet.build()?)?.length_m, to - from);
/// }
/// # Ok::<(), Box<dyn std::error::Error>>(())
/// ```
#[derive(Debug, Clone)]
pub struct Network {
    nodes: usize,
    roads: Vec<Road>,
    leaving: BTreeMap<usize, Vec<usize>>,
    /// The bytes of the roads and of the lists behind them; gone when a road is added.
    laid_out: OnceLock<Result<Vec<u8>, BuildError>>,
}

impl Network {
    /// So many nodes, and no road yet.
    pub fn new(nodes: usize) -> Network {
        Network {
            nodes,
            roads: vec![],
            leaving: BTreeMap::new(),
            laid_out: OnceLock::new(),
        }
    }

    /// Adds a road, and gives its number: they count from 0.
    pub fn road(&mut self, road: Road) -> usize {
        self.laid_out.take();
        self.roads.push(road);
        self.roads.len() - 1
    }

    /// The order of the roads that leave a node. A search takes them in this order, so it decides between equals.
    /// Where it is not given the newest is first, as in the graph of the original decoder.
    pub fn leaving(&mut self, node: usize, roads: Vec<usize>) {
        self.laid_out.take();
        self.leaving.insert(node, roads);
    }

    /// How many nodes there are.
    pub fn nodes(&self) -> usize {
        self.nodes
    }

    /// The roads, by their numbers.
    pub fn roads(&self) -> &[Road] {
        &self.roads
    }

    /// Says what is wrong with it, as every sheet over it would: it is laid out and judged on a sheet without points.
    pub fn check(&self) -> Result<(), BuildError> {
        let network = self.bytes()?;
        let counts = Counts {
            kind: Kind::Line as usize,
            points: 0,
            nodes: self.nodes,
            roads: self.roads.len(),
            rows: 0,
            goals: 0,
        };
        let mut writer = Writer::header(&counts, vec![]);
        writer.settings(&Settings::default());
        writer.laid_out(network);
        writer.zeros(2 * counts.distances_size());
        judged(&writer.bytes())
    }

    /// The bytes of the roads and the lists.
    pub(crate) fn bytes(&self) -> Result<&[u8], BuildError> {
        let laid_out = self.laid_out.get_or_init(|| self.lay_out());
        laid_out.as_deref().map_err(BuildError::clone)
    }

    fn lay_out(&self) -> Result<Vec<u8>, BuildError> {
        for (what, count, most) in [
            ("nodes", self.nodes, layout::MOST_NODES),
            ("roads", self.roads.len(), layout::MOST_ROADS),
        ] {
            if count > most {
                return Err(BuildError::TooMany { what, count, most });
            }
        }
        let nodes = self.nodes;
        for (road, r) in self.roads.iter().enumerate() {
            if let Some(node) = [r.source, r.target].into_iter().find(|v| *v >= nodes) {
                let id = r.id;
                return Err(BuildError::RoadWithoutNode {
                    road,
                    id,
                    node,
                    nodes,
                });
            }
        }
        let (starts, numbers) = self.lists()?;
        let mut writer = Writer::network(self.nodes, self.roads.len());
        self.roads.iter().for_each(|road| writer.road(road));
        starts.iter().for_each(|start| writer.number(*start));
        numbers.iter().for_each(|road| writer.number(*road));
        Ok(writer.bytes())
    }

    /// Where the roads of each node begin, and the roads that leave each node, in their order.
    fn lists(&self) -> Result<(Vec<usize>, Vec<usize>), BuildError> {
        let mut starts = vec![0; self.nodes + 1];
        for road in &self.roads {
            starts[road.source + 1] += 1;
        }
        for node in 0..self.nodes {
            starts[node + 1] += starts[node];
        }
        // the newest is first, so each node's part is filled from its end
        let mut ends = starts[1..].to_vec();
        let mut numbers = vec![0; self.roads.len()];
        for (number, road) in self.roads.iter().enumerate() {
            ends[road.source] -= 1;
            numbers[ends[road.source]] = number;
        }
        for (&node, given) in &self.leaving {
            let part = match node < self.nodes {
                true => &mut numbers[starts[node]..starts[node + 1]],
                false => &mut [],
            };
            let mut falling = given.clone();
            falling.sort_by(|a, b| b.cmp(a));
            if node >= self.nodes || part != falling {
                return Err(BuildError::Leaving {
                    node,
                    given: given.clone(),
                    leave: part.to_vec(),
                });
            }
            part.copy_from_slice(given);
        }
        Ok((starts, numbers))
    }
}

/// What the judge says of built bytes, with the field that it names.
pub(crate) fn judged(sheet: &[u8]) -> Result<(), BuildError> {
    let refused = |refusal| {
        let field = match refusal {
            Refusal::Value { offset } => field_at(sheet, offset),
            _ => None,
        };
        match field {
            Some(field) => BuildError::Value { field },
            None => BuildError::Refused { refusal },
        }
    };
    judge(sheet).map_err(refused)
}
