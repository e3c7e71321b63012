//! What a call must answer: refusals 1 to 6 by reading the scope's table, the rest by the original Rust.

pub mod answer;
pub mod call;
pub mod cases;
pub mod classes;
pub mod endless;
pub mod judge;
pub mod stored;
pub mod wrong;

pub use answer::{Answer, Match, Outcome};
pub use call::{call, lend_reference, Decoded, Original};
