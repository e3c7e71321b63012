//! `cargo test --example host`, and `cargo test` with the others.

mod arguments;
mod format;
mod measuring;
mod offsets;
mod picture;
mod round_trip;
mod rows;
mod town;
mod within;

#[track_caller]
fn near(found: f64, expected: f64, within: f64) {
    assert!(
        (found - expected).abs() <= within,
        "{found} instead of {expected}"
    );
}
