//! Matches OpenLR references to roads, with a proof: the safe face of `libhemokatu.a`.
//!
//! A host measures a reference against its roads and hands everything over as one sheet of bytes. [`SheetBuilder`]
//! lays a sheet out from its parts, [`Decoder`] answers it with a [`Match`] or a [`Refusal`]. A [`Network`] is laid out
//! once for many sheets; [`fields`] goes over what stands on one. A [`Tariff`] says what a path costs.
//!
//! ```
//! use hemokatu::{Decoder, Refusal};
//!
//! let mut decoder = Decoder::new();
//! for name in ["s1", "s2"] {
//!     let sheet = std::fs::read(format!("../sheets/{name}.sheet"))?;
//!     match decoder.decode(&sheet) {
//!         Ok(found) => assert_eq!((found.ids, found.length_m), (&[700][..], 50.0)),
//!         Err(refusal) => assert_eq!(refusal, Refusal::NoPath { from: 0, to: 1 }),
//!     }
//! }
//! # Ok::<(), std::io::Error>(())
//! ```
//!
//! What is proved is the library: every call on every byte sequence ends without a fault, and its answer is the
//! definition's, bit for bit. This crate passes it slices and hands on what it says; that part is tested. x86-64 Linux.

#![deny(missing_docs)]
#![deny(unsafe_code)]
#![deny(unsafe_op_in_unsafe_fn)]

#[cfg(not(all(target_arch = "x86_64", target_os = "linux")))]
compile_error!("libhemokatu.a is for x86-64 Linux");

mod answer;
mod areas;
mod build_error;
mod builder;
mod charge;
mod decoder;
#[allow(unsafe_code)]
mod ffi;
mod field;
mod layout;
mod metrics;
mod network;
mod parts;
mod reader;
mod refusal;
mod writer;

pub use answer::{list_text, Match};
pub use build_error::{BuildError, Distances};
pub use builder::SheetBuilder;
pub use charge::{Charge, ChargeRefusal, RoadOnPath, Tariff};
pub use decoder::{judge, Decoder, Sizes};
pub use field::{Field, Part, Range, Value};
pub use metrics::Metrics;
pub use network::Network;
pub use parts::{Kind, PathEntry, Point, Road, Row, Settings};
pub use reader::{field_at, fields};
pub use refusal::Refusal;

/// The version of this crate, as the library gives its own: 10,000 major + 100 minor + patch.
///
/// ```
/// assert_eq!(hemokatu::library_version(), hemokatu::VERSION);
/// ```
pub const VERSION: u32 = 10_000 * number(env!("CARGO_PKG_VERSION_MAJOR"))
    + 100 * number(env!("CARGO_PKG_VERSION_MINOR"))
    + number(env!("CARGO_PKG_VERSION_PATCH"));

/// The version of the library that is linked. A [`Decoder`] is not made over one whose calls are not this crate's.
pub fn library_version() -> u32 {
    ffi::version()
}

const fn number(digits: &str) -> u32 {
    let digits = digits.as_bytes();
    let mut number = 0;
    let mut i = 0;
    while i < digits.len() {
        number = 10 * number + (digits[i] - b'0') as u32;
        i += 1;
    }
    number
}

/// Runs the example of the page for feed servers.
#[cfg(doctest)]
#[doc = include_str!("../../docs/FEED_SERVER.md")]
struct FeedServer;
