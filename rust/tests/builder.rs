//! Sheets from parts, and parts that make none.

mod common;

use common::{chain, one_road, point, point_to_next, road, row, s1, sample, without_distances};
use hemokatu::{
    field_at, fields, judge, BuildError, Decoder, Distances, Kind, Network, Part, PathEntry, Point,
    Refusal, Road, Row, Settings, SheetBuilder, Value,
};
use std::sync::Arc;

#[test]
fn marked_sheets_byte_for_byte() {
    let first = |along| point_to_next(50.0, vec![row(0, along)]);
    let last = |along| point(vec![row(0, along)]);
    for (name, points) in [
        ("s1", vec![first(25.0), last(75.0)]),
        ("s2", vec![first(75.0), last(25.0)]),
        ("s3", vec![first(25.0)]),
        ("s4", vec![]),
    ] {
        assert_eq!(one_road(points).build().unwrap(), sample(name), "{name}");
    }
}

/// Two roads from node 0 to node 1, and one on; both ways on are equal, and the order decides.
fn two_ways() -> SheetBuilder {
    let mut sheet = SheetBuilder::new(Kind::Line, 4);
    for (id, source, target) in [(700, 0, 1), (701, 1, 2), (702, 1, 2), (703, 2, 3)] {
        sheet.road(road(id, 100.0, source, target));
    }
    sheet.point(point_to_next(200.0, vec![row(0, 50.0)]));
    sheet.point(point(vec![row(3, 50.0)]));
    without_distances(&mut sheet, 4);
    sheet
}

#[test]
fn the_newest_road_first() {
    let mut decoder = Decoder::new();
    let mut sheet = two_ways();
    let found = decoder
        .decode(&sheet.build().unwrap())
        .unwrap()
        .ids
        .to_vec();
    assert_eq!(found, [700, 702, 703]);
    sheet.leaving(1, vec![1, 2]);
    let found = decoder
        .decode(&sheet.build().unwrap())
        .unwrap()
        .ids
        .to_vec();
    assert_eq!(found, [700, 701, 703]);
}

fn refused(sheet: &SheetBuilder) -> (BuildError, String) {
    let error = sheet.build().unwrap_err();
    let text = error.to_string();
    (error, text)
}

#[test]
fn counts_above_their_limits() {
    let many = [
        (chain(1024), "1025 nodes, at most 1024 are possible"),
        (
            one_road(vec![point(vec![]); 17]),
            "17 points, at most 16 are possible",
        ),
        (
            one_road(vec![point(vec![row(0, 0.0); 65])]),
            "65 rows of point 0, at most 64 are possible",
        ),
    ];
    for (sheet, text) in many {
        assert_eq!(refused(&sheet).1, text);
    }
    let mut sheet = s1();
    for _ in 0..4096 {
        sheet.road(road(1, 1.0, 0, 1));
    }
    assert_eq!(refused(&sheet).1, "4097 roads, at most 4096 are possible");
}

#[test]
fn a_point_along_line_has_two_points() {
    let mut sheet = SheetBuilder::new(Kind::PointAlongLine, 0);
    assert_eq!(refused(&sheet).1, "a point along line has 2 points, not 0");
    sheet.point(point(vec![]));
    sheet.point(point(vec![]));
    let bytes = sheet.build().unwrap();
    let answer = Decoder::new().decode(&bytes).map(|_| ());
    assert_eq!(answer, Err(Refusal::NoCandidate { point: 0 }));
}

#[test]
fn numbers_of_what_is_not_there() {
    let mut sheet = s1();
    sheet.road(road(701, 1.0, 0, 2));
    let (error, text) = refused(&sheet);
    assert!(matches!(
        error,
        BuildError::RoadWithoutNode {
            road: 1,
            node: 2,
            ..
        }
    ));
    assert_eq!(text, "road 1 (id 701) names node 2, and there are 2 nodes");

    let mut sheet = s1();
    sheet.point(point(vec![row(usize::MAX, 1.0)]));
    let text = format!(
        "a row of point 2 names road {}, and there are 1 roads",
        usize::MAX
    );
    assert_eq!(refused(&sheet).1, text);

    let mut sheet = s1();
    sheet.goal(2, vec![0.0; 2]);
    assert_eq!(
        refused(&sheet).1,
        "goal node 2 is not there, there are 2 nodes"
    );
}

#[test]
fn rows_and_lists_that_repeat() {
    let sheet = one_road(vec![point(vec![row(0, 1.0), row(0, 2.0)])]);
    assert_eq!(refused(&sheet).1, "two rows of point 0 name road 0");

    for (node, roads) in [(0, vec![]), (0, vec![0, 0]), (1, vec![0]), (2, vec![])] {
        let mut sheet = s1();
        sheet.leaving(node, roads.clone());
        let leave = if node == 0 { vec![0] } else { vec![] };
        let text = format!(
            "the roads given for node {node} are {roads:?}, and those that leave it are {leave:?}"
        );
        assert_eq!(refused(&sheet).1, text);
    }
}

#[test]
fn distances_that_are_missing() {
    let mut sheet = s1();
    sheet.from_last(vec![0.0]);
    let list = Distances::FromLast;
    let [count, nodes] = [1, 2];
    let (error, text) = refused(&sheet);
    assert_eq!(error, BuildError::Distances { list, count, nodes });
    assert_eq!(text, "1 distances from the last point for 2 nodes");

    let mut sheet = s1();
    sheet.goal(0, vec![0.0; 3]);
    assert_eq!(refused(&sheet).1, "3 distances to goal node 0 for 2 nodes");

    let mut sheet = two_ways();
    assert_eq!(sheet.goal_nodes(), [2]);
    sheet.point(point(vec![row(0, 1.0), row(1, 1.0), row(2, 1.0)]));
    assert_eq!(sheet.goal_nodes(), [0, 1, 2]);
    assert_eq!(
        refused(&sheet).1,
        "the distances to goal node 0 are missing: road 0 leaves it, and a row of point 2 names that road"
    );
}

#[test]
fn values_out_of_range_are_named() {
    let mut sheet = s1();
    sheet.road(road(701, -0.0, 0, 1));
    let (error, text) = refused(&sheet);
    assert_eq!(
        text,
        "length of road 1 (id 701) is -0, and may be 0 to 10000000, not -0"
    );
    let BuildError::Value { field } = error else {
        panic!("{error}");
    };
    assert_eq!(field.part, Part::Road { road: 1, id: 701 });
    assert_eq!((field.name, field.value), ("length", Value::Real(-0.0)));

    let settings = |s: &mut Settings| s.max_candidates = 65;
    let mut sheet = s1();
    sheet.settings(Settings::default().with(settings));
    let text = "max_candidates of the settings is 65, and may be 0 to 64";
    assert_eq!(refused(&sheet).1, text);

    let mut sheet = s1();
    sheet.from_last(vec![0.0, f64::NAN]);
    let text = "distance of node 1 from the last point is NaN, and may be 0 to 10000000, not -0";
    assert_eq!(refused(&sheet).1, text);

    let mut sheet = s1();
    sheet.goal(0, vec![1e7, 1.1e7]);
    let text = "distance of node 1 in goal row 0 (to node 0) is 11000000, and may be 0 to 10000000, not -0";
    assert_eq!(refused(&sheet).1, text);

    let far = Row {
        bearing_deg: 361.0,
        ..row(0, 1.0)
    };
    let sheet = one_road(vec![point(vec![row(0, 1.0)]), point(vec![far])]);
    let text = "bearing of row 0 of point 1 (road 0) is 361, and may be 0 to 360, not -0";
    assert_eq!(refused(&sheet).1, text);

    let path = Some(PathEntry {
        lfrcnp: 8,
        dnp_m: 1.0,
    });
    let class = Point {
        path,
        ..point(vec![])
    };
    let text = "LFRCNP of point 0 is 8, and may be 0 to 7, or 255 for no path entry";
    assert_eq!(refused(&one_road(vec![class])).1, text);
}

/// Sheets over a kept network, and the same with the roads added to each.
#[test]
fn a_network_is_kept() {
    let mut network = Network::new(4);
    for r in two_ways().network().roads() {
        network.road(*r);
    }
    network.leaving(1, vec![1, 2]);
    network.check().unwrap();
    let network = Arc::new(network);
    let mut kept = SheetBuilder::over(Kind::Line, network.clone());
    let mut into = vec![7; 3];
    for dnp in [200.0, 150.0, 250.0] {
        let points = [
            point_to_next(dnp, vec![row(0, 50.0)]),
            point(vec![row(3, 50.0)]),
        ];
        let mut alone = two_ways();
        alone.restart(Kind::Line);
        alone.leaving(1, vec![1, 2]);
        kept.restart(Kind::Line);
        for sheet in [&mut alone, &mut kept] {
            for point in &points {
                sheet.point(point.clone());
            }
            without_distances(sheet, 4);
        }
        let bytes = kept.build().unwrap();
        assert_eq!(bytes, alone.build().unwrap());
        kept.build_into(&mut into).unwrap();
        assert_eq!(bytes, into);
    }
    assert!(std::ptr::eq(kept.network(), &*network));
    // a road that one sheet adds is not the others'
    kept.road(road(9, 1.0, 0, 1));
    assert_eq!(
        (kept.network().roads().len(), network.roads().len()),
        (5, 4)
    );
    assert!(kept.build().is_ok());
}

#[test]
fn a_network_says_what_is_wrong() {
    let mut network = Network::new(2);
    network.check().unwrap();
    network.road(Road {
        frc: 8,
        ..road(70, 1.0, 0, 1)
    });
    let text = "FRC of road 0 (id 70) is 8, and may be 0 to 7";
    assert_eq!(network.check().unwrap_err().to_string(), text);
    let mut into = vec![1];
    let mut sheet = SheetBuilder::over(Kind::Line, network);
    without_distances(&mut sheet, 2);
    assert_eq!(sheet.build_into(&mut into).unwrap_err().to_string(), text);
    assert!(into.is_empty());

    let mut network = Network::new(1);
    network.road(road(70, 1.0, 0, 1));
    let text = "road 0 (id 70) names node 1, and there are 1 nodes";
    assert_eq!(network.check().unwrap_err().to_string(), text);
}

/// Wherever a byte makes the judge name a place, it is the place of the field that the byte stands in.
#[test]
fn fields_are_where_the_judge_sees_them() {
    let sheet = two_ways().build().unwrap();
    let mut named = std::collections::BTreeSet::new();
    for at in 0..sheet.len() {
        for value in [1, 0x80, 0xFE] {
            let mut changed = sheet.clone();
            changed[at] = value;
            if let Err(Refusal::Value { offset }) = judge(&changed) {
                let field = field_at(&changed, offset).unwrap();
                let bits = |field: &hemokatu::Field| (field.part, field.name, field.offset);
                let there = field_at(&changed, at).unwrap();
                // the limit of a point decides whether its DNP may be more than 0
                if there.name != "LFRCNP" {
                    assert_eq!(bits(&field), bits(&there), "byte {at}");
                }
                assert_eq!(field.offset, offset);
                assert!(!field.range.has(field.value), "{field} at byte {at}");
                named.insert(field.to_string());
            }
        }
    }
    for field in [
        "kind of the header",
        "snap_to_valid_nodes of the settings",
        "LFRCNP of point 0",
        "DNP of point 0",
        "spare byte of road 3 (id 703)",
        "target of road 2 (id 702)",
        "road number 3 of the lists",
        "line length of row 0 of point 1 (road 3)",
        "distance of node 0 from the first point",
        "node of goal row 0",
        "spare byte of goal row 0 (to node 2)",
        "distance of node 3 in goal row 0 (to node 2)",
    ] {
        assert!(named.contains(field), "{field}");
    }
    assert_eq!(field_at(&sheet, sheet.len()), None);
    assert_eq!(field_at(&sheet, usize::MAX), None);
    assert_eq!(field_at(&sheet[..55], 0), None);
    let kind = field_at(&[255; 56], 3).unwrap();
    assert_eq!((kind.name, kind.offset), ("kind", 0));
    assert_eq!(field_at(&[255; 60], 56), None);
}

#[test]
fn fields_follow_each_other() {
    let sheet = two_ways().build().unwrap();
    let mut end = 0;
    for field in fields(&sheet) {
        assert_eq!(field.offset, end);
        assert!(field.range.has(field.value), "{field}");
        end += field.size;
    }
    assert_eq!(end, sheet.len());
    // of a sheet that is cut, the fields that are there
    for cut in 56..sheet.len() {
        let last = fields(&sheet[..cut]).last().unwrap();
        let end = last.offset + last.size;
        assert!(end <= cut && cut < end + 8, "{cut}");
    }
    assert_eq!(fields(&sheet[..55]).count(), 0);
    assert_eq!(fields(&[255; 100]).count(), 14);
}
