//! Points that lie within roads, as those from another map do.

use super::round_trip::locate;
use crate::measure::Place;
use crate::network::Network;
use crate::reference::{LocationPoint, Reference, Way};
use crate::sheet::Measurer;
use hemokatu::{Decoder, Kind, Refusal};

/// A degree of latitude in metres.
const DEGREE: f64 = 111_195.08;

/// A one-way road from node 1 to node 2: 100 m north, then 100 m east.
fn bend() -> Network {
    let (short, long) = (0.0, 100.0 / DEGREE);
    let text = format!(
        "node,1,{short},{short}\nnode,2,{long},{long}\nroad,1,1,2,3,3,0,1,Bend,{short} {long}\n"
    );
    Network::parse(&text).expect("a network")
}

/// From so many metres along the bend, going north, to its corner.
fn reference(from_m: f64, last_bearing: f64) -> Reference {
    let point = |north: f64, bearing, way| LocationPoint {
        at: Place {
            lon: 0.0,
            lat: north / DEGREE,
        },
        frc: 3,
        fow: 3,
        bearing,
        way,
    };
    let mut line = Reference::of(Kind::Line);
    let way = Way {
        lfrcnp: 3,
        dnp_m: 100.0 - from_m,
    };
    line.points = vec![
        point(from_m, 0.0, Some(way)),
        point(100.0, last_bearing, None),
    ];
    line
}

/// At the corner the chord that leads up to it goes north, the one behind it east.
#[test]
fn the_last_bearing_is_that_of_what_leads_up() {
    let network = bend();
    let mut host = Measurer::new(&network);
    host.settings.max_bearing_diff_deg = 45.0;
    let mut decoder = Decoder::new();
    let mut decode = |bearing| {
        let sheet = host.sheet(&reference(20.0, bearing)).expect("a sheet");
        decoder.decode(&sheet).map(|found| found.ids.to_vec())
    };
    assert_eq!(decode(0.0), Ok(vec![2]));
    assert_eq!(decode(90.0), Err(Refusal::NoCandidate { point: 1 }));
}

/// The path is the whole road; the points lie 20 m and 100 m along it, and the reference's offsets count between them.
#[test]
fn offsets_begin_at_the_points() {
    let network = bend();
    let host = Measurer::new(&network);
    let mut decoder = Decoder::new();
    let mut stretch = |start, end| {
        let mut line = reference(20.0, 0.0);
        (line.start_offset, line.end_offset) = (start, end);
        let located = locate(&host, &mut decoder, &line).expect("a match");
        assert!((located.total_m - 200.0).abs() < 0.01);
        (located.from_m.round(), located.to_m.round())
    };
    assert_eq!(stretch(None, None), (20.0, 100.0));
    assert_eq!(stretch(Some(0.25), None), (40.0, 100.0));
    assert_eq!(stretch(Some(0.25), Some(0.5)), (40.0, 60.0));
}
