//! Anything: random roads, rows, limits and settings.

use crate::build::{sheet, shuffled};
use crate::random::Random;
use crate::{Point, Road, Row, Sheet};

pub fn general(r: &mut Random) -> Sheet {
    let kind = if r.chance(25) { 2 } else { 1 };
    let nodes = if r.chance(3) { 0 } else { 1 + r.below(6) };
    let points = match kind {
        2 => 2,
        _ => r.of(&[0, 1, 2, 2, 2, 3, 3, 4]),
    };
    let roads = roads(r, nodes);
    let lists = shuffled(r, &roads, nodes);
    let points = (0..points)
        .map(|k| stop(r, &roads, k + 1 == points))
        .collect();
    let plain = r.chance(30);
    let mut ahead = r.clone();
    let mut s = sheet(nodes, roads, lists, points, |_, _| {
        if plain {
            0.0
        } else {
            ahead.metres(150)
        }
    });
    s.kind = kind;
    for v in 0..nodes {
        s.from_first[v] = r.metres(150);
        s.from_last[v] = r.metres(150);
    }
    if r.chance(30) {
        for setting in s.settings.numbers() {
            if r.chance(20) {
                *setting = r.metres(100);
            }
        }
    }
    if r.chance(60) {
        s.settings.absolute_tolerance = 1000.0;
    }
    if r.chance(40) {
        s.settings.snap_extension = 400.0;
    }
    let any = r.below(256) as u8;
    s.settings.frc_tolerance = r.of(&[2, 2, 2, 7, 0, 1, 3, any]);
    s.settings.snap = !r.chance(25);
    s.settings.most_candidates = r.of(&[10, 10, 10, 10, 1, 2, 3, 64]);
    s
}

fn roads(r: &mut Random, nodes: usize) -> Vec<Road> {
    let zeros = r.chance(30);
    let ring = r.chance(60);
    let mut roads = vec![];
    let count = if nodes == 0 || r.chance(2) {
        0
    } else {
        1 + r.below(2 * nodes)
    };
    for i in 0..count {
        let along = ring && r.chance(60);
        let (source, target) = (r.below(nodes), r.below(nodes));
        let length = r.metres(120);
        roads.push(Road {
            id: 700 + i as u64 % 7,
            length: if length == 0.0 && !zeros {
                10.0
            } else {
                length
            },
            source: if along { i % nodes } else { source },
            target: if along { (i + 1) % nodes } else { target },
            frc: r.below(if zeros { 8 } else { 4 }) as u8,
            fow: if r.chance(20) { 6 } else { r.below(8) as u8 },
            access: r.chance(20),
        });
    }
    roads
}

fn row(r: &mut Random, road: usize, length: f64) -> Row {
    let length = if r.chance(90) { length } else { r.metres(100) };
    let any = r.below(120) as f64 / 100.0;
    let near = r.below(12) as f64;
    let far = r.metres(110);
    let turned = r.below(361) as f64;
    let spread = 90.0 + r.below(90) as f64;
    Row {
        road,
        distance: r.of(&[0.0, 5.0, near, far]),
        bearing: r.of(&[90.0, 80.5, spread, turned]),
        along: length * r.of(&[0.0, 1.0, 0.5, any]),
        length,
    }
}

fn stop(r: &mut Random, roads: &[Road], last: bool) -> Point {
    let share = if roads.len() < 6 { 60 } else { 30 };
    let mut rows = vec![];
    for (i, road) in roads.iter().enumerate() {
        if r.chance(share) {
            rows.push(row(r, i, road.length));
        }
    }
    let open = if last { r.chance(80) } else { r.chance(10) };
    let dnp = r.metres(200);
    let turned = r.below(361) as u16;
    Point {
        dnp: if open { 0.0 } else { dnp },
        bearing: r.of(&[90, 90, 90, 90, turned]),
        frc: r.below(5) as u8,
        fow: r.below(8) as u8,
        limit: (!open).then(|| r.below(8) as u8),
        rows,
    }
}
