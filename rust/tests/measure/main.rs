//! The traps of docs/MEASURE.md. Each has a pair of sheets that differ in how one thing was measured: one measured as the
//! original does, and one that is well-formed, decodes, and is wrong.

// The example host's measuring; the traps need a part of it.
#[allow(dead_code)]
#[path = "../../examples/host/measure.rs"]
mod measure;

#[path = "../common/mod.rs"]
mod common;
mod map;

use common::road;
use hemokatu::{Kind, PathEntry, Row, SheetBuilder};
use map::{at, decoded, point, Map};
use measure::{Side, CHORD_M};

/// ```text
/// 0 ──10, 200 m──→ 1 ←─20, 21, 49.5 m─→ 2      the line ends at 1, going east
/// ```
/// The bearing that points back along the line fits road 21 alone, which is reached by going on and turning round.
#[test]
fn last_bearing_back_along_the_line() {
    let map = Map::new(
        &[(0.0, 0.0), (200.0, 0.0), (249.5, 0.0)],
        &[(10, 0, 1), (20, 1, 2), (21, 2, 1)],
    );
    let sheet = |bearing| {
        let first = map.first(at(0.0, 0.0), 90, 200.0);
        map.sheet(vec![first, map.last(at(200.0, 0.0), bearing)])
    };
    assert_eq!(decoded(&sheet(90)), (vec![10], 200.0, 0.0));
    assert_eq!(decoded(&sheet(270)), (vec![10, 20, 21], 299.0, 0.0));
}

/// ```text
///      ┌─20─→ 1 ──30──→ 2      10: 6 m north, then east    20: 6 m east, then north
///      │      ↑                the line runs by 10: its first 20 m have bearing 67
/// 0 ───┴─10───┘
/// ```
#[test]
fn tangent_instead_of_chord() {
    let mut map = Map::new(
        &[(0.0, 0.0), (150.0, 150.0), (270.0, 150.0)],
        &[(10, 0, 1), (20, 0, 1), (30, 1, 2)],
    );
    map.roads[0].3 = vec![at(0.0, 6.0), at(150.0, 6.0)];
    map.roads[1].3 = vec![at(6.0, 0.0), at(6.0, 150.0)];
    let sheet = |chord_m: f64| {
        let mut first = map.first(at(0.0, 0.0), 67, 420.0);
        for row in &mut first.1.rows {
            row.bearing_deg =
                measure::bearing_along(&map.line(row.road), 0.0, chord_m, Side::Forward);
        }
        map.sheet(vec![first, map.last(at(270.0, 150.0), 90)])
    };
    assert_eq!(decoded(&sheet(CHORD_M)), (vec![10, 30], 420.0, 0.0));
    assert_eq!(decoded(&sheet(1.0)), (vec![20, 30], 420.0, 0.0));
}

/// ```text
///             ┌─20─→ 2 ─21─→┐
/// 0 ──10──→ 1 ┤             4 ──40──→ 5      by 2: 206 m, one way;  by 3: 230 m, both ways
///             └←30→ 3 ←31→──┘
/// ```
/// Measured from the goal along the roads, 2 is 329 m away, since one has to come round by 3 and 1.
#[test]
fn distances_along_the_roads() {
    let map = Map::new(
        &[
            (-100.0, 0.0),
            (0.0, 0.0),
            (90.0, 40.0),
            (100.0, -65.0),
            (190.0, 0.0),
            (290.0, 0.0),
        ],
        &[
            (10, 0, 1),
            (20, 1, 2),
            (21, 2, 4),
            (30, 1, 3),
            (31, 3, 4),
            (32, 3, 1),
            (33, 4, 3),
            (40, 4, 5),
        ],
    );
    let first = map.first(at(-100.0, 0.0), 90, 406.0);
    let mut sheet = map.sheet(vec![first, map.last(at(290.0, 0.0), 90)]);
    assert_eq!(decoded(&sheet), (vec![10, 20, 21, 40], 406.0, 0.0));
    for goal in sheet.goal_nodes() {
        sheet.goal(goal, along_roads(&map, goal));
    }
    assert_eq!(along_roads(&map, 4)[2].round(), 329.0);
    assert_eq!(decoded(&sheet), (vec![10, 30, 31, 40], 430.0, 0.0));
}

/// The metres from a node to each along the roads; the greatest number of a sheet where no road leads.
fn along_roads(map: &Map, from: usize) -> Vec<f64> {
    let mut metres = vec![10_000_000.0_f64; map.nodes.len()];
    metres[from] = 0.0;
    for _ in 0..map.nodes.len() {
        for (number, (_, source, target, _)) in map.roads.iter().enumerate() {
            let through = metres[*source] + measure::length(&map.line(number));
            metres[*target] = metres[*target].min(through);
        }
    }
    metres
}

/// ```text
///     ┌──20, 290 m──┐
/// 0 ──┴──10, 200 m──┴→ 1      both points lie 5 m from 10, and 4 m from a stretch of 20
/// ```
/// The nearest road alone is not enough: that the message is 205 m long tells the two apart.
#[test]
fn only_the_nearest_road() {
    let row = |road, distance_m, along_m, line_length_m| Row {
        road,
        distance_m,
        bearing_deg: 90.0,
        along_m,
        line_length_m,
    };
    let sheet = |nearest: bool| {
        let mut sheet = SheetBuilder::new(Kind::Line, 2);
        for (id, length_m) in [(10, 200.0), (20, 290.0)] {
            sheet.road(road(id, length_m, 0, 1));
        }
        let path = PathEntry {
            lfrcnp: 3,
            dnp_m: 205.0,
        };
        for (path, part) in [(Some(path), 0.0), (None, 1.0)] {
            let mut rows = vec![row(1, 4.0, 290.0 * part, 290.0)];
            if !nearest {
                rows.push(row(0, 5.0, 200.0 * part, 200.0));
            }
            sheet.point(point(90, path, rows));
        }
        sheet.from_first(vec![5.0, 200.0]);
        sheet.from_last(vec![200.0, 5.0]);
        sheet.goal(0, vec![0.0, 200.0]);
        sheet
    };
    assert_eq!(decoded(&sheet(false)), (vec![10], 200.0, 0.0));
    assert_eq!(decoded(&sheet(true)), (vec![20], 290.0, 0.0));
}

/// ```text
/// 0 ────10────→ 1      its line is 100 m, its length by the map 120 m; the message runs over all of it
/// ```
/// With the road's length as the line's, the message ends 20 m before the junction.
#[test]
fn the_roads_length_as_the_lines() {
    let sheet = |line_length_m: f64| {
        let mut sheet = SheetBuilder::new(Kind::Line, 2);
        sheet.road(road(10, 120.0, 0, 1));
        let path = PathEntry {
            lfrcnp: 3,
            dnp_m: 120.0,
        };
        for (path, along_m) in [(Some(path), 0.0), (None, 100.0)] {
            let row = Row {
                road: 0,
                distance_m: 0.0,
                bearing_deg: 90.0,
                along_m,
                line_length_m,
            };
            sheet.point(point(90, path, vec![row]));
        }
        sheet.from_first(vec![0.0, 100.0]);
        sheet.from_last(vec![100.0, 0.0]);
        sheet.goal(0, vec![0.0, 100.0]);
        sheet
    };
    assert_eq!(decoded(&sheet(100.0)), (vec![10], 120.0, 0.0));
    assert_eq!(decoded(&sheet(120.0)), (vec![10], 100.0, 20.0));
}

/// ```text
/// 0 ──10, 400 m──→ 1 ──20, 20 m──→ 2 ──30──→ 3      the line ends 11 m behind 1
///                  └──40──→ 4                       without 40 nothing is to be chosen at 1
/// ```
/// The 11 m on road 20 are under 3 % of the leg and are dropped. Where 1 is no junction, the end is walked on to 2.
#[test]
fn a_side_road_cut_off() {
    let nodes = [
        (0.0, 0.0),
        (400.0, 0.0),
        (420.0, 0.0),
        (600.0, 0.0),
        (400.0, -300.0),
        (420.0, -300.0),
    ];
    let roads = [(10, 0, 1), (20, 1, 2), (30, 2, 3), (31, 2, 5), (40, 1, 4)];
    let sheet = |roads: &[(u64, usize, usize)]| {
        let map = Map::new(&nodes, roads);
        let first = map.first(at(0.0, 0.0), 90, 411.0);
        map.sheet(vec![first, map.last(at(411.0, 0.0), 90)])
    };
    assert_eq!(decoded(&sheet(&roads)), (vec![10], 411.0, 0.0));
    assert_eq!(decoded(&sheet(&roads[..4])), (vec![10, 20], 411.0, 20.0));
}

/// ```text
/// 0 ──10, 400 m──→ 1 ──20, 20 m──→ 2 ──30──→ 3      the same end without a junction at 1
///                                  └───31──→ 4
/// ```
/// Nothing is nearer than 0, so with all distances 0 no end is ever walked on.
#[test]
fn distances_left_at_zero() {
    let map = Map::new(
        &[
            (0.0, 0.0),
            (400.0, 0.0),
            (420.0, 0.0),
            (600.0, 0.0),
            (420.0, -300.0),
        ],
        &[(10, 0, 1), (20, 1, 2), (30, 2, 3), (31, 2, 4)],
    );
    let first = map.first(at(0.0, 0.0), 90, 411.0);
    let mut sheet = map.sheet(vec![first, map.last(at(411.0, 0.0), 90)]);
    assert_eq!(decoded(&sheet), (vec![10, 20], 411.0, 20.0));
    sheet.from_last(vec![0.0; 5]);
    assert_eq!(decoded(&sheet), (vec![10], 411.0, 0.0));
}
