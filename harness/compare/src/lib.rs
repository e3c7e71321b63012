//! The port against the oracle.

pub mod pairs;
pub mod port;
pub mod shrink;
pub mod tally;
