//! What a field of a sheet is: its part, its name, what stands there and what may stand there.

use crate::layout;
use std::fmt;

/// A field of a sheet. In words it is its name and its place, as `length of road 0 (id 700)`.
#[derive(Debug, Clone, Copy, PartialEq)]
#[non_exhaustive]
pub struct Field {
    /// The part of the sheet that it belongs to.
    pub part: Part,
    /// What it is called.
    pub name: &'static str,
    /// Where it begins in the sheet.
    pub offset: usize,
    /// Its bytes.
    pub size: usize,
    /// What stands there.
    pub value: Value,
    /// What may stand there. That it does is not yet all: lists, orders and goal rows have rules beside it.
    pub range: Range,
}

/// A part of a sheet. Everything is counted from 0.
#[derive(Debug, Clone, Copy, PartialEq, Eq)]
#[non_exhaustive]
pub enum Part {
    /// The header.
    Header,
    /// The settings.
    Settings,
    /// A point.
    Point {
        /// Its number.
        point: usize,
    },
    /// A road.
    Road {
        /// Its number.
        road: usize,
        /// What the answer calls it.
        id: u64,
    },
    /// A start position of the lists.
    Start {
        /// The node whose part of the lists begins there; the last position has the number of nodes.
        node: usize,
    },
    /// A road number of the lists.
    Listed {
        /// Its position.
        position: usize,
    },
    /// A row.
    Row {
        /// The point whose row it is; None where the points' row counts do not reach so far.
        point: Option<usize>,
        /// Its place among the point's rows, or among all.
        row: usize,
        /// The road that it names.
        road: usize,
    },
    /// A distance from the first point.
    FromFirst {
        /// The node.
        node: usize,
    },
    /// A distance from the last point.
    FromLast {
        /// The node.
        node: usize,
    },
    /// What stands before the distances of a goal row.
    Goal {
        /// The goal row.
        row: usize,
        /// The node that it names.
        goal: usize,
    },
    /// A distance of a goal row.
    ToGoal {
        /// The goal row.
        row: usize,
        /// The node that it names.
        goal: usize,
        /// The node whose distance it is.
        node: usize,
    },
}

/// What stands in a field.
#[derive(Debug, Clone, Copy, PartialEq)]
pub enum Value {
    /// A whole number.
    Number(u64),
    /// An f64.
    Real(f64),
}

/// What may stand in a field.
#[derive(Debug, Clone, Copy, PartialEq)]
#[non_exhaustive]
pub enum Range {
    /// Anything.
    Any,
    /// This number alone.
    Only(u64),
    /// A whole number between these, both included.
    Numbers(u64, u64),
    /// A number below this count.
    Below(usize),
    /// A class from 0 to 7, or 255 for no path entry.
    ClassOrNone,
    /// An f64 from 0 to this one. Neither -0 nor a NaN.
    Reals(f64),
}

impl Range {
    /// Whether a value is within it.
    ///
    /// ```
    /// use hemokatu::{Range, Value};
    ///
    /// assert!(Range::Reals(360.0).has(Value::Real(0.0)));
    /// assert!(!Range::Reals(360.0).has(Value::Real(-0.0)));
    /// ```
    pub fn has(&self, value: Value) -> bool {
        match (*self, value) {
            (Range::Any, _) => true,
            (Range::Only(only), Value::Number(n)) => n == only,
            (Range::Only(only), Value::Real(x)) => x.to_bits() == (only as f64).to_bits(),
            (Range::Numbers(from, to), Value::Number(n)) => (from..=to).contains(&n),
            (Range::Below(count), Value::Number(n)) => n < count as u64,
            (Range::ClassOrNone, Value::Number(n)) => n <= 7 || n == layout::NO_PATH as u64,
            (Range::Reals(most), Value::Real(x)) => x.is_sign_positive() && x <= most,
            _ => false,
        }
    }
}

impl fmt::Display for Part {
    fn fmt(&self, f: &mut fmt::Formatter<'_>) -> fmt::Result {
        match self {
            Part::Header => f.write_str("the header"),
            Part::Settings => f.write_str("the settings"),
            Part::Point { point } => write!(f, "point {point}"),
            Part::Road { road, id } => write!(f, "road {road} (id {id})"),
            Part::Start { node } => write!(f, "start position {node} of the lists"),
            Part::Listed { position } => write!(f, "road number {position} of the lists"),
            Part::Row { point, row, road } => match point {
                Some(point) => write!(f, "row {row} of point {point} (road {road})"),
                None => write!(f, "row {row} (road {road}), which is no point's"),
            },
            Part::FromFirst { node } => write!(f, "distance of node {node} from the first point"),
            Part::FromLast { node } => write!(f, "distance of node {node} from the last point"),
            Part::Goal { row, goal } => write!(f, "goal row {row} (to node {goal})"),
            Part::ToGoal { row, goal, node } => {
                write!(
                    f,
                    "distance of node {node} in goal row {row} (to node {goal})"
                )
            }
        }
    }
}

impl fmt::Display for Field {
    fn fmt(&self, f: &mut fmt::Formatter<'_>) -> fmt::Result {
        match self.part {
            Part::Start { .. }
            | Part::Listed { .. }
            | Part::FromFirst { .. }
            | Part::FromLast { .. }
            | Part::ToGoal { .. } => self.part.fmt(f),
            // the number in question is not said twice
            Part::Row {
                point: Some(point),
                row,
                ..
            } if self.name == "road" => write!(f, "road of row {row} of point {point}"),
            Part::Goal { row, .. } if self.name == "node" => write!(f, "node of goal row {row}"),
            part => write!(f, "{} of {part}", self.name),
        }
    }
}

impl fmt::Display for Value {
    fn fmt(&self, f: &mut fmt::Formatter<'_>) -> fmt::Result {
        match self {
            Value::Number(n) => n.fmt(f),
            Value::Real(x) => x.fmt(f),
        }
    }
}

impl fmt::Display for Range {
    fn fmt(&self, f: &mut fmt::Formatter<'_>) -> fmt::Result {
        match self {
            Range::Any => f.write_str("anything"),
            Range::Only(only) => only.fmt(f),
            Range::Numbers(from, to) => write!(f, "{from} to {to}"),
            Range::Below(0) => f.write_str("none, since there are none"),
            Range::Below(count) => write!(f, "0 to {}", count - 1),
            Range::ClassOrNone => f.write_str("0 to 7, or 255 for no path entry"),
            Range::Reals(most) => write!(f, "0 to {most}, not -0"),
        }
    }
}
