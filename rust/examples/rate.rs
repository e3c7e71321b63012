//! What a reference costs a host: laying out its sheet and decoding it, over a grid of 3,480 roads.
//!
//! `cargo run --release --example rate` prints microseconds, the median and the least of 2,000 references, with the
//! roads added to each sheet and with a network that is kept. Run it on a quiet machine.

use hemokatu::{Decoder, Kind, Network, PathEntry, Point, Road, Row, SheetBuilder};
use std::sync::Arc;
use std::time::Instant;

/// Nodes on a side, 100 m apart, with roads both ways.
const SIDE: usize = 30;
const NODES: usize = SIDE * SIDE;
const REFERENCES: usize = 2_000;

fn main() {
    let roads = roads();
    println!("{NODES} nodes, {} roads, lines of 1,500 m", roads.len());
    let each = |measured: Measured, bytes: &mut Vec<u8>| {
        let mut sheet = SheetBuilder::new(Kind::Line, NODES);
        for road in &roads {
            sheet.road(*road);
        }
        add(&mut sheet, measured);
        sheet.build_into(bytes).expect("a sheet");
    };
    report("roads added to each sheet", &roads, each);

    let mut network = Network::new(NODES);
    for road in &roads {
        network.road(*road);
    }
    let mut sheet = SheetBuilder::over(Kind::Line, Arc::new(network));
    let kept = |measured: Measured, bytes: &mut Vec<u8>| {
        sheet.restart(Kind::Line);
        add(&mut sheet, measured);
        sheet.build_into(bytes).expect("a sheet");
    };
    report("a network that is kept", &roads, kept);
}

fn roads() -> Vec<Road> {
    let mut roads = vec![];
    for node in 0..NODES {
        let east = (node % SIDE + 1 < SIDE).then_some(node + 1);
        let north = (node / SIDE + 1 < SIDE).then_some(node + SIDE);
        for other in [east, north].into_iter().flatten() {
            for (source, target) in [(node, other), (other, node)] {
                roads.push(Road {
                    id: roads.len() as u64,
                    length_m: 100.0,
                    source,
                    target,
                    frc: 3,
                    fow: 3,
                    ..Road::default()
                });
            }
        }
    }
    roads
}

/// What a host has measured for a reference.
struct Measured {
    points: [Point; 2],
    from_first: Vec<f64>,
    from_last: Vec<f64>,
    to_goal: Vec<f64>,
}

/// A line eastward, from the middle of a road to the middle of the one 15 nodes on.
fn measured(roads: &[Road], at: usize) -> Measured {
    let from = at % SIDE * SIDE + at % 14;
    let to = from + 15;
    let point = |node: usize, path| {
        let is_east = |road: &Road| (road.source, road.target) == (node, node + 1);
        let row = Row {
            road: roads.iter().position(is_east).expect("a road east"),
            distance_m: 0.0,
            bearing_deg: 90.0,
            along_m: 50.0,
            line_length_m: 100.0,
        };
        Point {
            bearing_deg: 90,
            frc: 3,
            fow: 3,
            path,
            rows: vec![row],
        }
    };
    let path = PathEntry {
        lfrcnp: 3,
        dnp_m: 1_500.0,
    };
    Measured {
        points: [point(from, Some(path)), point(to, None)],
        from_first: distances(from, 0.5),
        from_last: distances(to, 0.5),
        to_goal: distances(to, 0.0),
    }
}

fn add(sheet: &mut SheetBuilder, measured: Measured) {
    let [first, last] = measured.points;
    sheet.point(first);
    sheet.point(last);
    sheet.from_first(measured.from_first);
    sheet.from_last(measured.from_last);
    for goal in sheet.goal_nodes() {
        sheet.goal(goal, measured.to_goal.clone());
    }
}

/// As the crow flies, from so far east of a node.
fn distances(node: usize, east: f64) -> Vec<f64> {
    let place = |node: usize| ((node % SIDE) as f64, (node / SIDE) as f64);
    let (x, y) = place(node);
    let metres = |node| {
        let (a, b) = place(node);
        100.0 * (a - x - east).hypot(b - y)
    };
    (0..NODES).map(metres).collect()
}

fn report(name: &str, roads: &[Road], mut build: impl FnMut(Measured, &mut Vec<u8>)) {
    let mut decoder = Decoder::new();
    let (mut building, mut decoding) = (vec![], vec![]);
    let mut sheet = vec![];
    for at in 0..REFERENCES {
        let measured = measured(roads, at);
        let began = Instant::now();
        build(measured, &mut sheet);
        building.push(began.elapsed().as_secs_f64() * 1e6);
        let began = Instant::now();
        let found = decoder.decode(&sheet).expect("a match");
        decoding.push(began.elapsed().as_secs_f64() * 1e6);
        assert_eq!(found.ids.len(), 16);
    }
    for (what, mut times) in [("lay out", building), ("decode", decoding)] {
        times.sort_by(f64::total_cmp);
        let (median, least) = (times[times.len() / 2], times[0]);
        println!("{name}: {what} {median:.1} µs, least {least:.1} µs");
    }
}
