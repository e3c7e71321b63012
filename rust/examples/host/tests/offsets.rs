//! The reference's own offsets, points along line, closed roads, and the last point's bearing.

use super::round_trip::{locate, through_base64, ALL};
use super::town::{town, Dice};
use crate::encode::{encode, Location};
use crate::located::SAME_M;
use crate::measure::{self, Place};
use crate::reference::Reference;
use crate::route::Routes;
use crate::sheet::Measurer;
use hemokatu::{Decoder, Kind, Refusal};
use std::collections::BTreeSet;

/// The location begins and ends where it was laid, to within the steps of places and offsets.
#[test]
fn offsets_come_back() {
    let town = town();
    let host = Measurer::new(&town);
    let routes = Routes::new(&host);
    let (mut decoder, mut dice) = (Decoder::new(), Dice(3));
    let (mut with_point, mut elsewhere) = (0, 0);
    for number in 0..300 {
        let path = dice.path(&routes);
        let line: Vec<Place> = path
            .iter()
            .flat_map(|road| town.roads[*road].line.clone())
            .collect();
        let metres = measure::length(&line);
        let mut part = || metres * dice.below(49) as f64 / 100.0;
        let (start_m, end_m) = (part(), part());
        let is_point = number % 3 == 0;
        let location = match is_point {
            true => Location::Point {
                at_m: start_m,
                side: 2,
                orientation: 1,
            },
            false => Location::Line { start_m, end_m },
        };
        let read = through_base64(&encode(&routes, &path, location).expect("it can be encoded"));
        let located = locate(&host, &mut decoder, &read).expect("it is not refused");
        let longest = read
            .points
            .iter()
            .filter_map(|point| point.way)
            .map(|way| way.dnp_m)
            .fold(0.0, f64::max);
        let blur = SAME_M + (longest + 29.3) / 512.0;
        let is_off = |there_m: f64, here_m: f64| {
            let (there, here) = (
                measure::place_at(&located.line, there_m),
                measure::place_at(&line, here_m),
            );
            measure::distance(there, here) > blur
        };
        if is_point {
            assert_eq!(
                (read.kind, read.points.len(), read.side, read.orientation),
                (Kind::PointAlongLine, 2, 2, 1)
            );
            assert_eq!(located.from_m, located.to_m);
            with_point += 1;
        }
        let end_off = !is_point && is_off(located.to_m, metres - end_m);
        elsewhere += usize::from(is_off(located.from_m, start_m) || end_off);
    }
    println!(
        "{with_point} points and {} lines, {elsewhere} elsewhere by the format's steps",
        300 - with_point
    );
    assert_eq!(with_point, 100);
    assert!(elsewhere <= 3, "{elsewhere} are elsewhere");
}

/// A closed road is on no sheet, so the path goes round it; with all roads closed there is no candidate.
#[test]
fn closed_roads_are_left_out() {
    let town = town();
    let mut host = Measurer::new(&town);
    let routes = Routes::new(&host);
    let (from, to) = (town.node_number(12).unwrap(), town.node_number(87).unwrap());
    let path = routes.path(&routes.tree(from), from, to).unwrap();
    let reference = encode(&routes, &path, ALL).unwrap();
    let middle = path[path.len() / 2];
    let mut decoder = Decoder::new();
    for cut in [true, false] {
        host.cut = cut;
        host.close(BTreeSet::new());
        let all = locate(&host, &mut decoder, &reference).expect("the path");
        assert_eq!(all.roads, path);
        host.close(BTreeSet::from([town.street_of(middle).id]));
        let round = locate(&host, &mut decoder, &reference).expect("there is a way round");
        assert!(!round.roads.contains(&middle) && round.roads.contains(&path[0]));
        host.close(town.streets.iter().map(|street| street.id).collect());
        let sheet = host.sheet(&reference).unwrap();
        assert_eq!(
            decoder.decode(&sheet).unwrap_err(),
            Refusal::NoCandidate { point: 0 }
        );
    }
}

/// Written by the White Paper and turned when read, it is the same reference; not turned, it often gives other roads or none.
#[test]
fn a_last_bearing_turned_round() {
    let town = town();
    let host = Measurer::new(&town);
    let routes = Routes::new(&host);
    let (mut decoder, mut dice) = (Decoder::new(), Dice(9));
    let (mut same, mut other) = (0, 0);
    for _ in 0..100 {
        let path = dice.path(&routes);
        let right = through_base64(&encode(&routes, &path, ALL).unwrap());
        let mut turned = right.clone();
        turned.turn_last_bearing();
        let mut back = through_base64(&turned);
        let roads = |decoder: &mut Decoder, reference: &Reference| {
            locate(&host, decoder, reference).map(|found| found.roads)
        };
        let wanted = roads(&mut decoder, &right);
        match roads(&mut decoder, &back) == wanted {
            true => same += 1,
            false => other += 1,
        }
        back.turn_last_bearing();
        assert_eq!(roads(&mut decoder, &back), wanted);
    }
    println!(
        "last bearing not turned: {other} of {} paths go wrong",
        same + other
    );
    assert!(other >= 10, "{other} go wrong");
}
