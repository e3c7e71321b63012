//! The published files of crate road-network.

#[rustfmt::skip]
#[path = "../../original/crates/road-network/src/graph.rs"]
pub mod graph;
#[rustfmt::skip]
#[path = "../../original/crates/road-network/src/road_class.rs"]
pub mod road_class;
#[rustfmt::skip]
#[path = "../../original/crates/road-network/src/spatial.rs"]
pub mod spatial;
