//! The sample sheets: built from parts, and for the first refusals damaged afterwards.

use super::plane::{Mark, Place, Plane};
use hemokatu::{
    list_text, Decoder, Kind, PathEntry, Point, Refusal, Road, Row, Settings, SheetBuilder, Sizes,
};

/// The name of a sample and its bytes.
pub type Sample = (&'static str, Vec<u8>);

pub fn all() -> Vec<Sample> {
    let s1 = built(&s1());
    vec![
        ("s1", s1.clone()),
        ("s2", built(&one_road(&[(75.0, Some(50.0)), (25.0, None)]))),
        ("s3", built(&one_road(&[(25.0, Some(50.0))]))),
        ("s4", built(&one_road(&[]))),
        ("legs", built(&legs())),
        ("point_along", built(&point_along())),
        ("snapped", built(&snapped(true))),
        ("unsnapped", built(&snapped(false))),
        ("refused_1", s1[..55].to_vec()),
        ("refused_2", damaged(&s1, 4, &17u32.to_le_bytes())),
        ("refused_3", damaged(&s1, 48, &401u32.to_le_bytes())),
        ("refused_4", damaged(&s1, 224, &(-0.0f64).to_le_bytes())),
        // the starts say that road 0 leaves node 1
        ("refused_5", damaged(&s1, 252, &0u32.to_le_bytes())),
        ("refused_6", built(&chain(65))),
        ("refused_7", built(&of_kind(Kind::Poi))),
        ("refused_8", built(&streets().sheet(Kind::Line, &[]))),
        ("refused_9", built(&far())),
        ("refused_10", built(&wrong_way())),
        ("refused_11", built(&misleading(8))),
    ]
}

/// A sheet above 48 KiB, which the list program does not take: 1,000 roads in a row.
pub fn large() -> Vec<u8> {
    built(&chain(1_001))
}

/// What the list program prints. It takes 48 KiB, and lends node areas of 64 entries, a heap of 128, and a coverage area
/// and answer lists of 256.
pub fn expected(sheet: &[u8]) -> String {
    if sheet.len() > 48 * 1024 {
        return "large\n".to_string();
    }
    let mut decoder = Decoder::with_heap_limit(128);
    let answer = decoder.decode(sheet);
    let judged_well = !matches!(&answer, Err(refusal) if refusal.number() < 6);
    if judged_well && !has_room(sheet) {
        return list_text(&Err(Refusal::Room));
    }
    list_text(&answer)
}

fn has_room(sheet: &[u8]) -> bool {
    let count = |at: usize| u32::from_le_bytes([0, 1, 2, 3].map(|i| sheet[at + i])) as usize;
    Sizes::of(count(4), count(8)).is_some_and(|s| s.node <= 64 && s.list <= 256)
}

fn built(sheet: &SheetBuilder) -> Vec<u8> {
    sheet.build().expect("the parts make a sheet")
}

fn damaged(sheet: &[u8], at: usize, bytes: &[u8]) -> Vec<u8> {
    let mut sheet = sheet.to_vec();
    sheet[at..at + bytes.len()].copy_from_slice(bytes);
    sheet
}

/// Road 700, 100 m eastward, and points so far along it, each with its distance to the next. As S1 to S4 have it, all
/// distances are 0, and there is a goal row of node 0.
fn one_road(points: &[(f64, Option<f64>)]) -> SheetBuilder {
    let mut sheet = SheetBuilder::new(Kind::Line, 2);
    sheet.road(road(700, 100.0, 0, 1));
    for &(along_m, dnp_m) in points {
        sheet.point(point(dnp_m, row(0, along_m)));
    }
    sheet.from_first(vec![0.0; 2]);
    sheet.from_last(vec![0.0; 2]);
    sheet.goal(0, vec![0.0; 2]);
    sheet
}

fn s1() -> SheetBuilder {
    one_road(&[(25.0, Some(50.0)), (75.0, None)])
}

/// A road of class 3, form of way 3.
pub fn road(id: u64, length_m: f64, source: usize, target: usize) -> Road {
    Road {
        id,
        length_m,
        source,
        target,
        frc: 3,
        fow: 3,
        ..Road::default()
    }
}

/// On a road of 100 m eastward.
pub fn row(road: usize, along_m: f64) -> Row {
    Row {
        road,
        distance_m: 0.0,
        bearing_deg: 90.0,
        along_m,
        line_length_m: 100.0,
    }
}

fn point(dnp_m: Option<f64>, row: Row) -> Point {
    Point {
        bearing_deg: 90,
        frc: 3,
        fow: 3,
        path: dnp_m.map(|dnp_m| PathEntry { lfrcnp: 3, dnp_m }),
        rows: vec![row],
    }
}

/// ```text
///  10 ─ 11 ─ 12 ─ 13 ─ 14      nodes 200 m apart, roads both ways:
///   │    │    │    │    │      eastward 100, 102, …, westward 101, 103, …,
///   5 ── 6 ── 7 ── 8 ── 9      northward 200, 202, …, southward 201, 203, …
///   │    │    │    │    │
///   0 ── 1 ── 2 ── 3 ── 4
/// ```
fn streets() -> Plane {
    let place = |node: usize| (200.0 * (node % 5) as f64, 200.0 * (node / 5) as f64);
    let mut plane = Plane::new((0..15).map(place).collect());
    for (number, node) in (0..15).filter(|node| node % 5 < 4).enumerate() {
        plane.both_ways(100 + 2 * number as u64, node, node + 1);
    }
    for node in 0..10 {
        plane.both_ways(200 + 2 * node as u64, node, node + 5);
    }
    plane
}

fn mark(at: Place, bearing_deg: u16, dnp_m: Option<f64>) -> Mark {
    Mark {
        at,
        bearing_deg,
        dnp_m,
    }
}

/// Four points on three legs: east along the lowest street, north, and east along the highest one.
/// The points lie up to 6 m beside the roads, as those of another map do.
fn legs() -> SheetBuilder {
    streets().sheet(
        Kind::Line,
        &[
            mark((60.0, 4.0), 90, Some(340.0)),
            mark((406.0, 10.0), 0, Some(390.0)),
            mark((410.0, 395.0), 90, Some(330.0)),
            mark((740.0, 401.0), 90, None),
        ],
    )
}

/// Two points on the middle street; the point itself lies between them.
fn point_along() -> SheetBuilder {
    streets().sheet(
        Kind::PointAlongLine,
        &[
            mark((150.0, 203.0), 90, Some(500.0)),
            mark((650.0, 198.0), 90, None),
        ],
    )
}

/// One way, and the last point 12 m along the short road: too little of the leg to be kept. Node 2 is no junction, so
/// the path is walked on to node 3, to which the point is nearer. Without snapping it ends at node 2.
///
/// ```text
/// 0 ── 300, 500 m ─→ 1 ── 301, 500 m ─→ 2 ─ 302, 20 m ─→ 3
/// ```
fn snapped(snap: bool) -> SheetBuilder {
    let nodes = [0.0, 500.0, 1_000.0, 1_020.0].map(|x| (x, 0.0));
    let mut plane = Plane::new(nodes.to_vec());
    for node in 0..3 {
        plane.road(300 + node as u64, node, node + 1);
    }
    let first = mark((0.0, 3.0), 90, Some(1_012.0));
    let last = mark((1_012.0, 0.0), 90, None);
    let mut sheet = plane.sheet(Kind::Line, &[first, last]);
    sheet.settings(Settings::default().with(|s| s.snap_to_valid_nodes = snap));
    sheet
}

fn of_kind(kind: Kind) -> SheetBuilder {
    let mut sheet = s1();
    sheet.restart(kind);
    sheet.from_first(vec![0.0; 2]);
    sheet.from_last(vec![0.0; 2]);
    sheet
}

/// The second point is farther from every road than the search radius.
fn far() -> SheetBuilder {
    let first = mark((100.0, 0.0), 90, Some(200.0));
    let last = mark((300.0, 550.0), 90, None);
    streets().sheet(Kind::Line, &[first, last])
}

/// One way, and the second point before the first.
fn wrong_way() -> SheetBuilder {
    let mut plane = Plane::new([0.0, 300.0, 600.0].map(|x| (x, 0.0)).to_vec());
    plane.road(400, 0, 1);
    plane.road(401, 1, 2);
    let first = mark((450.0, 0.0), 90, Some(300.0));
    let last = mark((150.0, 0.0), 90, None);
    plane.sheet(Kind::Line, &[first, last])
}

/// Roads 500, 501, ... in a row, from the middle of the first to the middle of the last.
fn chain(nodes: usize) -> SheetBuilder {
    let mut plane = Plane::new((0..nodes).map(|i| (100.0 * i as f64, 0.0)).collect());
    for node in 0..nodes - 1 {
        plane.road(500 + node as u64, node, node + 1);
    }
    let length = 100.0 * (nodes - 2) as f64;
    let first = mark((50.0, 0.0), 90, Some(length));
    let last = mark((50.0 + length, 0.0), 90, None);
    plane.sheet(Kind::Line, &[first, last])
}

/// A search that opens a node 2 to the `turns` times: at each of `turns` nodes the shorter of two ways on seems so far
/// from the goal that it is tried last, after everything behind the longer one.
///
/// ```text
///  entry → 0 ──────→ 1 ──────→ 2 ─ … ─ turns      the longer way: 1 + 2^(turns - 1 - i) metres
///          ├─→ side ─┘├─→ side ─┘                  the shorter way: 1 metre in two roads
///          └──── the way to the goal, longer than all of it ────→ goal → exit
/// ```
pub fn misleading(turns: usize) -> SheetBuilder {
    let side = |i: usize| turns + 1 + i;
    let [goal, entry, exit] = [0, 1, 2].map(|i| 2 * turns + 1 + i);
    let nodes = 2 * turns + 4;
    let mut sheet = SheetBuilder::new(Kind::Line, nodes);
    let reach = (turns + (1 << turns)) as f64 + 1.0;
    let way = reach * (turns + 2) as f64;
    sheet.road(road(700, 100.0, entry, 0));
    sheet.road(road(701, way, 0, goal));
    sheet.road(road(702, 100.0, goal, exit));
    for i in 0..turns {
        let more = (1 << (turns - 1 - i)) as f64;
        sheet.road(road(1, 1.0 + more, i, i + 1));
        sheet.road(road(2, 0.5, i, side(i)));
        sheet.road(road(3, 0.5, side(i), i + 1));
    }
    sheet.point(point(Some(way + 100.0), row(0, 50.0)));
    sheet.point(point(None, row(2, 50.0)));
    sheet.from_first(vec![0.0; nodes]);
    sheet.from_last(vec![0.0; nodes]);
    let mut seems = vec![0.0; nodes];
    for i in 0..turns {
        seems[side(i)] = reach * (turns - i) as f64;
    }
    sheet.goal(goal, seems);
    sheet
}
