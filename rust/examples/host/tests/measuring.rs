//! Distances and bearings worked out by hand from the original's formulas.

use super::near;
use crate::measure::*;

/// A degree of a great circle: 6,371,008.8 m times pi over 180.
const DEGREE: f64 = 111_195.080_233_53;

fn place(lon: f64, lat: f64) -> Place {
    Place { lon, lat }
}

/// A place so many metres east and north of where equator and prime meridian cross. There it is flat to a tenth of a
/// millimetre over the lengths below.
fn metres(east: f64, north: f64) -> Place {
    place(east / DEGREE, north / DEGREE)
}

#[test]
fn distances() {
    near(distance(place(0.0, 0.0), place(0.0, 1.0)), DEGREE, 1e-6);
    near(distance(place(0.0, 0.0), place(1.0, 0.0)), DEGREE, 1e-6);
    // The angle between the unit vectors, by their cross and dot product.
    near(
        distance(place(0.0, 60.0), place(1.0, 60.0)),
        55_597.010_865,
        1e-5,
    );
    near(
        distance(place(10.0, 50.0), place(11.0, 51.0)),
        131_780.656_220,
        1e-5,
    );
    // The short way over the date line.
    near(
        distance(place(179.9, 0.0), place(-179.9, 0.0)),
        0.2 * DEGREE,
        1e-6,
    );
    let corner = [metres(0.0, 0.0), metres(30.0, 0.0), metres(30.0, 40.0)];
    near(length(&corner), 70.0, 1e-6);
}

#[test]
fn projections() {
    // 100 m east, then 100 m north.
    let line = [metres(0.0, 0.0), metres(100.0, 0.0), metres(100.0, 100.0)];
    for (at, distance_m, along_m) in [
        (metres(25.0, 10.0), 10.0, 25.0),
        (metres(25.0, -10.0), 10.0, 25.0),
        (metres(110.0, 60.0), 10.0, 160.0),
        // Before the start and behind the end: held to the ends.
        (metres(-30.0, 40.0), 50.0, 0.0),
        (metres(130.0, 140.0), 50.0, 200.0),
    ] {
        let found = project(at, &line);
        near(found.distance_m, distance_m, 1e-4);
        near(found.along_m, along_m, 1e-4);
        near(found.line_m, 200.0, 1e-4);
    }
    // There and back, as near to both segments: the first one's.
    let found = project(
        metres(25.0, 10.0),
        &[metres(0.0, 0.0), metres(100.0, 0.0), metres(0.0, 0.0)],
    );
    near(found.along_m, 25.0, 1e-4);
    // At 60 degrees north a degree of longitude is half as wide: halfway along in metres too.
    let slanted = [place(0.0, 60.0), place(0.002, 60.001)];
    let middle = project(place(0.001, 60.0005), &slanted);
    near(middle.distance_m, 0.0, 1e-6);
    near(middle.along_m / middle.line_m, 0.5, 1e-9);
}

#[test]
fn bearings() {
    let origin = place(0.0, 0.0);
    for (to, expected) in [
        (place(0.0, 0.001), 0.0),
        (place(0.001, 0.0), 90.0),
        (place(0.0, -0.001), 180.0),
        (place(-0.001, 0.0), 270.0),
        // On the ellipsoid a degree of longitude is 1 / (1 - e²) of one of latitude at the equator: the arc tangent of 1.00674.
        (place(0.001, 0.001), 45.192_423),
        (place(-0.001, 0.001), 314.807_577),
    ] {
        near(bearing(origin, to), expected, 1e-5);
    }
    // At 60 degrees: 0.5 (1 - 0.75 e²) / (1 - e²) is 0.500842, and its arc tangent:
    near(
        bearing(place(0.0, 59.9995), place(0.001, 60.0005)),
        26.603_65,
        1e-4,
    );
    near(bearing_difference(350.0, 10.0), 20.0, 0.0);
    near(bearing_difference(0.0, 180.0), 180.0, 0.0);
}

#[test]
fn chords() {
    use Side::*;
    // 10 m north, then 100 m east.
    let bend = [metres(0.0, 0.0), metres(0.0, 10.0), metres(100.0, 10.0)];
    let slope = bearing(metres(0.0, 0.0), metres(10.0, 10.0));
    near(slope, 45.192, 1e-3);
    // The first 20 m end 10 m behind the corner; the tangent would be 0.
    near(bearing_along(&bend, 0.0, CHORD_M, Forward), slope, 1e-3);
    // At the start nothing leads up to the place: the other side's chord.
    near(bearing_along(&bend, 0.0, CHORD_M, Backward), slope, 1e-3);
    near(bearing_along(&bend, 10.0, CHORD_M, Forward), 90.0, 1e-3);
    // What leads up to the corner is 10 m: the chord is cut short.
    near(bearing_along(&bend, 10.0, CHORD_M, Backward), 0.0, 1e-3);
    near(bearing_along(&bend, 20.0, CHORD_M, Backward), slope, 1e-3);
    near(bearing_along(&bend, 110.0, CHORD_M, Backward), 90.0, 1e-3);
    // A line of 10 m north and 0.6 m east: with 0.6 m left the chord is short but there, with 0.4 m the other side is taken.
    let hook = [metres(0.0, 0.0), metres(0.0, 10.0), metres(0.6, 10.0)];
    near(bearing_along(&hook, 10.0, CHORD_M, Forward), 90.0, 1e-3);
    let back = bearing(metres(0.0, 0.0), metres(0.2, 10.0));
    near(bearing_along(&hook, 10.2, CHORD_M, Forward), back, 1e-3);
    // Nothing over 0.5 m on either side.
    let dot = [metres(0.0, 0.0), metres(0.4, 0.0)];
    near(bearing_along(&dot, 0.2, CHORD_M, Forward), 0.0, 0.0);
}

#[test]
fn places_along_a_line() {
    let line = [metres(0.0, 0.0), metres(100.0, 0.0), metres(100.0, 100.0)];
    for (along_m, expected) in [
        (-5.0, (0.0, 0.0)),
        (40.0, (40.0, 0.0)),
        (150.0, (100.0, 50.0)),
        (250.0, (100.0, 100.0)),
    ] {
        let found = place_at(&line, along_m);
        near(distance(found, metres(expected.0, expected.1)), 0.0, 1e-4);
    }
    let part = part(&line, 60.0, 130.0);
    assert_eq!(part.len(), 3);
    near(length(&part), 70.0, 1e-4);
}

/// The box of the circle, not the circle: a corner of the box is 141 m away.
#[test]
fn nearby() {
    let box_of = |east, north| bounds(&[metres(east, north), metres(east + 50.0, north + 50.0)]);
    let is_near = |east, north| meets(&box_around(metres(0.0, 0.0), 100.0), &box_of(east, north));
    assert!(
        is_near(99.9, 0.0) && is_near(0.0, 99.9) && is_near(99.9, 99.9) && is_near(-149.9, -149.9)
    );
    assert!(!is_near(100.1, 0.0) && !is_near(0.0, 100.1) && !is_near(-150.1, 0.0));
    // Over the date line.
    let beyond = bounds(&[place(-179.9999, 0.0), place(-179.9, 0.0)]);
    assert!(meets(&box_around(place(179.9999, 0.0), 100.0), &beyond));
    assert!(!meets(&box_around(place(179.99, 0.0), 100.0), &beyond));
}
