//! The published files of the decoder, with a `std` whose heap counts its entries and a `spatial` that answers from a sheet.

extern crate counted_std as std;

pub use measured as spatial;
pub use road_network::{graph, road_class};

#[rustfmt::skip]
#[path = "../../original/src/candidates.rs"]
pub mod candidates;
#[rustfmt::skip]
#[path = "../../original/src/decoder.rs"]
pub mod decoder;
