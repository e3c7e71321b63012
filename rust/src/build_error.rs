//! What can be wrong with the parts of a sheet.

use crate::{Field, Refusal};
use std::fmt;

/// Why parts make no well-formed sheet. Points, roads and nodes are counted from 0.
#[derive(Debug, Clone, PartialEq)]
#[non_exhaustive]
pub enum BuildError {
    /// A count above its limit.
    TooMany {
        /// What is counted.
        what: &'static str,
        /// How many there are.
        count: usize,
        /// How many there may be.
        most: usize,
    },
    /// A point with too many rows.
    TooManyRows {
        /// The point.
        point: usize,
        /// How many it has.
        count: usize,
        /// How many it may have.
        most: usize,
    },
    /// A point along line has two points.
    NotTwoPoints {
        /// How many there are.
        points: usize,
    },
    /// A road leaves or leads to a node that is not there.
    RoadWithoutNode {
        /// The road.
        road: usize,
        /// Its id.
        id: u64,
        /// The node.
        node: usize,
        /// How many nodes there are.
        nodes: usize,
    },
    /// A row names a road that is not there.
    RowWithoutRoad {
        /// The point whose row it is.
        point: usize,
        /// The road.
        road: usize,
        /// How many roads there are.
        roads: usize,
    },
    /// Two rows of a point name one road.
    RowTwice {
        /// The point.
        point: usize,
        /// The road.
        road: usize,
    },
    /// The roads said to leave a node are not those that do, each once.
    Leaving {
        /// The node.
        node: usize,
        /// The roads given for it.
        given: Vec<usize>,
        /// Those that leave it, the newest first; none of a node that is not there.
        leave: Vec<usize>,
    },
    /// A list of distances without one for each node.
    Distances {
        /// Which distances.
        list: Distances,
        /// How many distances there are.
        count: usize,
        /// How many nodes there are.
        nodes: usize,
    },
    /// A goal that is no node.
    GoalWithoutNode {
        /// The goal.
        node: usize,
        /// How many nodes there are.
        nodes: usize,
    },
    /// Distances to a goal are missing.
    NoGoal {
        /// The node.
        node: usize,
        /// A point after the first, with a row that needs them.
        point: usize,
        /// The road of that row; it leaves the node.
        road: usize,
    },
    /// A value out of its range.
    Value {
        /// The field, with its value and its range.
        field: Field,
    },
    /// What the judge refuses otherwise. Parts that pass all of the above are not refused.
    Refused {
        /// The judge's refusal.
        refusal: Refusal,
    },
}

/// Which distances of a sheet.
#[derive(Debug, Clone, Copy, PartialEq, Eq)]
pub enum Distances {
    /// From the first point.
    FromFirst,
    /// From the last point.
    FromLast,
    /// To this goal node.
    ToGoal(usize),
}

impl fmt::Display for Distances {
    fn fmt(&self, f: &mut fmt::Formatter<'_>) -> fmt::Result {
        match self {
            Distances::FromFirst => f.write_str("distances from the first point"),
            Distances::FromLast => f.write_str("distances from the last point"),
            Distances::ToGoal(node) => write!(f, "distances to goal node {node}"),
        }
    }
}

impl fmt::Display for BuildError {
    fn fmt(&self, f: &mut fmt::Formatter<'_>) -> fmt::Result {
        match self {
            BuildError::TooMany { what, count, most } => {
                write!(f, "{count} {what}, at most {most} are possible")
            }
            BuildError::TooManyRows { point, count, most } => {
                write!(
                    f,
                    "{count} rows of point {point}, at most {most} are possible"
                )
            }
            BuildError::NotTwoPoints { points } => {
                write!(f, "a point along line has 2 points, not {points}")
            }
            BuildError::RoadWithoutNode {
                road,
                id,
                node,
                nodes,
            } => {
                write!(
                    f,
                    "road {road} (id {id}) names node {node}, and there are {nodes} nodes"
                )
            }
            BuildError::RowWithoutRoad { point, road, roads } => {
                write!(
                    f,
                    "a row of point {point} names road {road}, and there are {roads} roads"
                )
            }
            BuildError::RowTwice { point, road } => {
                write!(f, "two rows of point {point} name road {road}")
            }
            BuildError::Leaving { node, given, leave } => {
                write!(f, "the roads given for node {node} are {given:?}, and those that leave it are {leave:?}")
            }
            BuildError::Distances { list, count, nodes } => {
                write!(f, "{count} {list} for {nodes} nodes")
            }
            BuildError::GoalWithoutNode { node, nodes } => {
                write!(f, "goal node {node} is not there, there are {nodes} nodes")
            }
            BuildError::NoGoal { node, point, road } => {
                write!(f, "the distances to goal node {node} are missing: road {road} leaves it, and a row of point {point} names that road")
            }
            BuildError::Value { field } => {
                write!(f, "{field} is {}, and may be {}", field.value, field.range)
            }
            BuildError::Refused { refusal } => refusal.fmt(f),
        }
    }
}

impl std::error::Error for BuildError {}
