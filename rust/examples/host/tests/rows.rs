//! More roads near a point than a point has rows.

use crate::measure::Place;
use crate::network::Network;
use crate::reference::{LocationPoint, Reference, Way};
use crate::sheet::Measurer;
use hemokatu::{Decoder, Kind};

/// A degree of latitude in metres.
const DEGREE: f64 = 111_195.08;

/// Roads of 200 m to the east, one above the other: how far north each lies, and whether it runs back instead.
fn bundle(roads: impl Iterator<Item = (f64, bool)>) -> Network {
    let (mut nodes, mut ways) = (String::new(), String::new());
    for (number, (north, is_back)) in roads.enumerate() {
        let (west, east) = (2 * number, 2 * number + 1);
        let lat = north / DEGREE;
        nodes += &format!(
            "node,{west},0,{lat}\nnode,{east},{},{lat}\n",
            200.0 / DEGREE
        );
        let (from, to) = if is_back { (east, west) } else { (west, east) };
        ways += &format!("road,{number},{from},{to},3,3,0,1,Lane {number},\n");
    }
    Network::parse(&(nodes + &ways)).expect("a network")
}

/// Along the bundle at its foot.
fn reference() -> Reference {
    let point = |east: f64, way| LocationPoint {
        at: Place {
            lon: east / DEGREE,
            lat: 0.0,
        },
        frc: 3,
        fow: 3,
        bearing: 90.0,
        way,
    };
    let mut line = Reference::of(Kind::Line);
    line.points = vec![
        point(
            20.0,
            Some(Way {
                lfrcnp: 3,
                dnp_m: 160.0,
            }),
        ),
        point(180.0, None),
    ];
    line
}

/// The rows of the first point, and the id of the matched road.
fn decoded(network: &Network) -> Result<(u8, Vec<u64>), String> {
    let sheet = Measurer::new(network).sheet(&reference())?;
    let mut decoder = Decoder::new();
    let found = decoder.decode(&sheet).map_err(|e| e.to_string())?;
    // The row count of the first point, by include/hemokatu.h: behind 56 bytes of header and 112 of settings.
    Ok((sheet[56 + 112 + 16], found.ids.to_vec()))
}

#[test]
fn up_to_64_all_are_there() {
    let network = bundle((0..64).map(|n| (1.5 * (63 - n) as f64, false)));
    assert_eq!(decoded(&network), Ok((64, vec![2 * 63])));
}

/// Those that the decoder drops by itself go first, however near they are.
#[test]
fn what_runs_the_other_way_goes_first() {
    let network = bundle((0..90).map(|n| (0.5 * n as f64, n < 40)));
    assert_eq!(decoded(&network), Ok((50, vec![2 * 40])));
}

/// Then the farthest, where ten others are nearer by more than all else can make up for: 6.5 m with the default weights.
#[test]
fn then_the_farthest() {
    let network = bundle((0..90).map(|n| (1.1 * (89 - n) as f64, false)));
    assert_eq!(decoded(&network), Ok((64, vec![2 * 89])));
}

#[test]
fn too_many_are_named() {
    let network = bundle((0..90).map(|n| (0.1 * n as f64, false)));
    let error = "point 0: 90 roads are near it, at most 64 are possible";
    assert_eq!(decoded(&network), Err(error.to_string()));
}
