//! A sheet from its parts.

use crate::layout::{self, Counts};
use crate::network::judged;
use crate::writer::Writer;
use crate::{BuildError, Distances, Kind, Network, Point, Road, Row, Settings};
use std::collections::{BTreeMap, BTreeSet};
use std::ops::Deref;
use std::sync::Arc;

/// Lays out a sheet from roads, points with their rows, and distances.
///
/// Offsets, start positions, lists, the order of rows and the order of goals follow from the parts.
/// For many references over the same roads, see [`Network`].
///
/// ```text
/// node 0 ───────── road 0, 100 m ─────────→ node 1
///            25 m           75 m
///            point 0        point 1
/// ```
///
/// ```
/// use hemokatu::{Decoder, Kind, PathEntry, Point, Road, Row, SheetBuilder};
///
/// let mut sheet = SheetBuilder::new(Kind::Line, 2);
/// let road = sheet.road(Road { id: 700, length_m: 100.0, source: 0, target: 1, frc: 3, fow: 3, ..Road::default() });
/// for (along_m, path) in [(25.0, Some(PathEntry { lfrcnp: 3, dnp_m: 50.0 })), (75.0, None)] {
///     let row = Row { road, distance_m: 0.0, bearing_deg: 90.0, along_m, line_length_m: 100.0 };
///     sheet.point(Point { bearing_deg: 90, frc: 3, fow: 3, path, rows: vec![row] });
/// }
/// // A host measures these; here all are 0.
/// sheet.from_first(vec![0.0; 2]);
/// sheet.from_last(vec![0.0; 2]);
/// for goal in sheet.goal_nodes() {
///     sheet.goal(goal, vec![0.0; 2]);
/// }
///
/// let bytes = sheet.build()?;
/// assert_eq!(bytes, std::fs::read("../sheets/s1.sheet")?);
/// assert_eq!(Decoder::new().decode(&bytes)?.ids, [700]);
/// # Ok::<(), Box<dyn std::error::Error>>(())
/// ```
#[derive(Debug, Clone)]
pub struct SheetBuilder {
    kind: Kind,
    settings: Settings,
    network: Held,
    points: Vec<Point>,
    from_first: Vec<f64>,
    from_last: Vec<f64>,
    goals: BTreeMap<usize, Vec<f64>>,
}

/// The network of a sheet, its own or one that others hold too.
#[derive(Debug, Clone)]
enum Held {
    Own(Network),
    Shared(Arc<Network>),
}

impl Held {
    /// Its own, copied if it was not.
    fn own(&mut self) -> &mut Network {
        if let Held::Shared(network) = self {
            *self = Held::Own(Network::clone(network));
        }
        match self {
            Held::Own(network) => network,
            Held::Shared(_) => unreachable!("it was made its own"),
        }
    }
}

impl Deref for Held {
    type Target = Network;

    fn deref(&self) -> &Network {
        match self {
            Held::Own(network) => network,
            Held::Shared(network) => network,
        }
    }
}

impl SheetBuilder {
    /// A sheet of this kind with so many nodes and the default settings, and nothing else yet.
    pub fn new(kind: Kind, nodes: usize) -> SheetBuilder {
        SheetBuilder::with(kind, Held::Own(Network::new(nodes)))
    }

    /// A sheet of this kind over a network, with the default settings, and nothing else yet.
    pub fn over(kind: Kind, network: impl Into<Arc<Network>>) -> SheetBuilder {
        SheetBuilder::with(kind, Held::Shared(network.into()))
    }

    fn with(kind: Kind, network: Held) -> SheetBuilder {
        SheetBuilder {
            kind,
            settings: Settings::default(),
            network,
            points: vec![],
            from_first: vec![],
            from_last: vec![],
            goals: BTreeMap::new(),
        }
    }

    /// Begins another reference: network and settings stay, points and distances go.
    pub fn restart(&mut self, kind: Kind) {
        self.kind = kind;
        self.points.clear();
        self.from_first.clear();
        self.from_last.clear();
        self.goals.clear();
    }

    /// Other settings.
    pub fn settings(&mut self, settings: Settings) {
        self.settings = settings;
    }

    /// The network.
    pub fn network(&self) -> &Network {
        &self.network
    }

    /// Adds a road, and gives its number: they count from 0. A network from [`SheetBuilder::over`] is copied first.
    pub fn road(&mut self, road: Road) -> usize {
        self.network.own().road(road)
    }

    /// Adds a point behind the others, and gives its number.
    pub fn point(&mut self, point: Point) -> usize {
        self.points.push(point);
        self.points.len() - 1
    }

    /// The order of the roads that leave a node: [`Network::leaving`]. A network from [`SheetBuilder::over`] is
    /// copied first.
    pub fn leaving(&mut self, node: usize, roads: Vec<usize>) {
        self.network.own().leaving(node, roads);
    }

    /// The metres from the first point to each node.
    pub fn from_first(&mut self, distances_m: Vec<f64>) {
        self.from_first = distances_m;
    }

    /// The metres from the last point to each node.
    pub fn from_last(&mut self, distances_m: Vec<f64>) {
        self.from_last = distances_m;
    }

    /// The nodes to which distances are needed: each that a road leaves on which a point after the first may lie.
    pub fn goal_nodes(&self) -> Vec<usize> {
        let nodes: BTreeSet<usize> = self.needed().map(|(node, _, _)| node).collect();
        nodes.into_iter().collect()
    }

    /// The metres to a goal node from each node, as the crow flies; `docs/MEASURE.md` says why.
    pub fn goal(&mut self, node: usize, distances_m: Vec<f64>) {
        self.goals.insert(node, distances_m);
    }

    /// The bytes, which are a well-formed sheet, or what is wrong with the parts.
    pub fn build(&self) -> Result<Vec<u8>, BuildError> {
        let mut sheet = vec![];
        self.build_into(&mut sheet)?;
        Ok(sheet)
    }

    /// The same into a vector that a host keeps, in place of what it had. Empty after an error.
    pub fn build_into(&self, sheet: &mut Vec<u8>) -> Result<(), BuildError> {
        sheet.clear();
        let network = self.network.bytes()?;
        self.check_counts()?;
        self.check_rows()?;
        self.check_distances()?;
        let rows = self.rows()?;
        *sheet = self.write(network, &rows, std::mem::take(sheet));
        judged(sheet).inspect_err(|_| sheet.clear())
    }

    /// The goal nodes that rows need, each with the point and the road of the row.
    fn needed(&self) -> impl Iterator<Item = (usize, usize, usize)> + '_ {
        let points = self.points.iter().enumerate().skip(1);
        points.flat_map(move |(point, p)| {
            p.rows.iter().filter_map(move |row| {
                let road = self.network.roads().get(row.road)?;
                Some((road.source, point, row.road))
            })
        })
    }

    fn row_count(&self) -> usize {
        self.points.iter().map(|point| point.rows.len()).sum()
    }

    fn check_counts(&self) -> Result<(), BuildError> {
        for (point, p) in self.points.iter().enumerate() {
            let (count, most) = (p.rows.len(), layout::MOST_ROWS_OF_POINT);
            if count > most {
                return Err(BuildError::TooManyRows { point, count, most });
            }
        }
        for (what, count, most) in [
            ("points", self.points.len(), layout::MOST_POINTS),
            ("rows", self.row_count(), layout::MOST_ROWS),
            ("goals", self.goals.len(), layout::MOST_GOALS),
        ] {
            if count > most {
                return Err(BuildError::TooMany { what, count, most });
            }
        }
        let points = self.points.len();
        match self.kind {
            Kind::PointAlongLine if points != 2 => Err(BuildError::NotTwoPoints { points }),
            _ => Ok(()),
        }
    }

    /// Rows name roads that are there.
    fn check_rows(&self) -> Result<(), BuildError> {
        let roads = self.network.roads().len();
        for (point, p) in self.points.iter().enumerate() {
            if let Some(row) = p.rows.iter().find(|row| row.road >= roads) {
                let road = row.road;
                return Err(BuildError::RowWithoutRoad { point, road, roads });
            }
        }
        Ok(())
    }

    /// Every list of distances has one for each node, and no goal is missing.
    fn check_distances(&self) -> Result<(), BuildError> {
        let nodes = self.network.nodes();
        let goals = self
            .goals
            .iter()
            .map(|(node, distances)| (Distances::ToGoal(*node), distances));
        let first = (Distances::FromFirst, &self.from_first);
        let last = (Distances::FromLast, &self.from_last);
        for (list, distances) in [first, last].into_iter().chain(goals) {
            let count = distances.len();
            if count != nodes {
                return Err(BuildError::Distances { list, count, nodes });
            }
        }
        if let Some(&node) = self.goals.keys().find(|node| **node >= nodes) {
            return Err(BuildError::GoalWithoutNode { node, nodes });
        }
        let missing = self.needed().find(|need| !self.goals.contains_key(&need.0));
        match missing {
            Some((node, point, road)) => Err(BuildError::NoGoal { node, point, road }),
            None => Ok(()),
        }
    }

    /// All rows, point after point, by rising road.
    fn rows(&self) -> Result<Vec<Row>, BuildError> {
        let mut all = Vec::with_capacity(self.row_count());
        for (point, p) in self.points.iter().enumerate() {
            let mut rows = p.rows.clone();
            rows.sort_by_key(|row| row.road);
            if let Some(pair) = rows.windows(2).find(|pair| pair[0].road == pair[1].road) {
                let road = pair[0].road;
                return Err(BuildError::RowTwice { point, road });
            }
            all.append(&mut rows);
        }
        Ok(all)
    }

    fn write(&self, network: &[u8], rows: &[Row], into: Vec<u8>) -> Vec<u8> {
        let counts = Counts {
            kind: self.kind as usize,
            points: self.points.len(),
            nodes: self.network.nodes(),
            roads: self.network.roads().len(),
            rows: rows.len(),
            goals: self.goals.len(),
        };
        let mut writer = Writer::header(&counts, into);
        writer.settings(&self.settings);
        self.points.iter().for_each(|point| writer.point(point));
        writer.laid_out(network);
        rows.iter().for_each(|row| writer.row(row));
        writer.reals(&self.from_first);
        writer.reals(&self.from_last);
        for (node, distances) in &self.goals {
            writer.number(*node);
            writer.zeros(4);
            writer.reals(distances);
        }
        writer.bytes()
    }
}
