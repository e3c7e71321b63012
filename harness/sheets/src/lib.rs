//! Sheets: their parts, their bytes, and many kinds of them from a seed.

pub mod areas;
pub mod build;
mod bytes;
pub mod damage;
pub mod families;
mod fields;
pub mod random;
pub mod sheet;
pub mod words;

pub use areas::Areas;
pub use random::Random;
pub use sheet::{Point, Road, Row, Settings, Sheet};
