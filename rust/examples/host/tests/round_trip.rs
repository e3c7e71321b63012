//! From a path to a reference, to base64, back, to a sheet, to a path.

use super::town::{town, Dice};
use crate::encode::{encode, Location};
use crate::located::{Located, SAME_M};
use crate::network::Network;
use crate::reference::Reference;
use crate::route::Routes;
use crate::sheet::Measurer;
use crate::{base64, binary};
use hemokatu::{Decoder, Match};

const PATHS: usize = 1_200;
/// Places, bearings, distances: one of them, or two.
const ONE_OR_TWO: [[bool; 3]; 6] = [
    [true, false, false],
    [false, true, false],
    [false, false, true],
    [true, true, false],
    [true, false, true],
    [false, true, true],
];
pub const ALL: Location = Location::Line {
    start_m: 0.0,
    end_m: 0.0,
};

/// The roads of which the location has more than so many metres.
pub fn covered(network: &Network, located: &Located, least_m: f64) -> Vec<usize> {
    let mut begin = 0.0;
    let mut covered = vec![];
    for road in &located.roads {
        let end = begin + network.roads[*road].length_m;
        if located.to_m.min(end) - located.from_m.max(begin) > least_m {
            covered.push(*road);
        }
        begin = end;
    }
    covered
}

pub fn through_base64(reference: &Reference) -> Reference {
    let text = base64::write(&binary::write(reference).expect("it can be written"));
    binary::read(&base64::read(&text).expect("it is base64")).expect("it can be read")
}

/// The location of a reference on the roads that it decodes to; None where it is refused.
pub fn locate(host: &Measurer, decoder: &mut Decoder, reference: &Reference) -> Option<Located> {
    let sheet = host.sheet(reference).expect("a sheet");
    let found = decoder.decode(&sheet).ok()?;
    Some(Located::new(host.network, reference, &found).expect("roads of the network"))
}

/// How far apart two places can be that are one in the reference: what the format's steps hide of a point, and half of
/// an offset's step, which is a 256th of a leg.
fn blur(reference: &Reference) -> f64 {
    let legs = reference.points.iter().filter_map(|point| point.way);
    let has_offset = reference.start_offset.or(reference.end_offset).is_some();
    let longest = legs.map(|way| way.dnp_m).fold(0.0, f64::max);
    SAME_M + if has_offset { longest / 512.0 } else { 0.0 }
}

/// The reference as read, with some of places, bearings and distances as they were made.
fn sharpened(
    read: &Reference,
    exact: &Reference,
    [places, bearings, distances]: [bool; 3],
) -> Reference {
    let mut reference = read.clone();
    for (point, exact) in reference.points.iter_mut().zip(&exact.points) {
        if places {
            point.at = exact.at;
        }
        if bearings {
            point.bearing = exact.bearing;
        }
        if distances {
            point.way = exact.way;
        }
    }
    reference
}

/// Half of the paths are the cheapest between two nodes, half are walks that turn anywhere.
///
/// 1. With the reference as it was made, in full precision, every path comes out, road for road: measuring, choice of
///    points and decoding fit together.
/// 2. Written and read, it comes out too, but for roads at an end of which the location has less than the blur.
/// 3. Where it does not, the format's steps are the cause: with the places, the bearings or the distances in full precision
///    again, or two of them, the path comes out. That is rare, and counted.
#[test]
fn paths_come_back() {
    let town = town();
    let host = Measurer::new(&town);
    let routes = Routes::new(&host);
    let (mut decoder, mut dice) = (Decoder::new(), Dice(20));
    let (mut same, mut blurred, mut coarse) = (0, 0, 0);
    for number in 0..PATHS {
        let path = match number % 2 {
            0 => dice.path(&routes),
            _ => dice.walk(&routes),
        };
        let exact = encode(&routes, &path, ALL).expect("it can be encoded");
        let located = locate(&host, &mut decoder, &exact).expect("it is not refused");
        assert_eq!(covered(&town, &located, 0.01), path, "path {number}");

        let read = through_base64(&exact);
        match locate(&host, &mut decoder, &read) {
            Some(located) if located.roads == path => same += 1,
            Some(located) if covered(&town, &located, blur(&read)) == path => blurred += 1,
            _ => {
                let is_path = |sharp: &[bool; 3]| {
                    let reference = sharpened(&read, &exact, *sharp);
                    let located = locate(&host, &mut decoder, &reference);
                    located.is_some_and(|l| covered(&town, &l, blur(&read)) == path)
                };
                assert!(ONE_OR_TWO.iter().any(is_path), "path {number}");
                coarse += 1;
            }
        }
    }
    assert_eq!(same + blurred + coarse, PATHS);
    assert!(same > PATHS * 7 / 10, "{same} are the same");
    assert!(coarse <= PATHS * 2 / 100, "{coarse} differ");
    println!("{PATHS} paths: {same} the same, {blurred} but for offsets and ends, {coarse} by the format's steps");
}

/// The part of the network that a sheet has gives the answer that all of it gives, to the last bit.
#[test]
fn a_part_is_enough() {
    let town = town();
    let part = Measurer::new(&town);
    let mut whole = Measurer::new(&town);
    whole.cut = false;
    let routes = Routes::new(&part);
    let (mut decoder, mut dice) = (Decoder::new(), Dice(5));
    let mut smaller = 0;
    for number in 0..150 {
        let path = match number % 2 {
            0 => dice.path(&routes),
            _ => dice.walk(&routes),
        };
        let reference = through_base64(&encode(&routes, &path, ALL).expect("it can be encoded"));
        let sheets = [&part, &whole].map(|host| host.sheet(&reference).expect("a sheet"));
        smaller += usize::from(sheets[0].len() < sheets[1].len());
        let answers = sheets.map(|sheet| decoder.decode(&sheet).map(|found| in_bits(&found)));
        assert_eq!(answers[0], answers[1], "path {number}");
    }
    assert!(smaller > 20, "{smaller} sheets are smaller");
}

fn in_bits(found: &Match) -> (Vec<u64>, Vec<u64>) {
    let numbers = [
        found.length_m,
        found.start_offset_m,
        found.start_fraction,
        found.end_offset_m,
        found.end_fraction,
        found.coverage_m,
    ];
    let numbers = numbers.iter().chain(found.lengths_m).map(|v| v.to_bits());
    (found.ids.to_vec(), numbers.chain([found.primary]).collect())
}
