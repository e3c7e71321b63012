//! Damaged sheets: every field out of range, truncations, wrong counts, offsets, lists, orders, small areas.

use crate::areas::DRAWN;
use crate::fields::{one_field, put};
use crate::random::Random;
use crate::{Areas, Point, Sheet};

/// A header word: a count, an offset, the total, the final zero.
fn header(r: &mut Random, bytes: &mut [u8]) {
    let word = 4 * r.below(14);
    let old = u32::from_le_bytes(bytes[word..word + 4].try_into().unwrap());
    let limit = [9, 16, 1024, 4096, 1024, 1024][word / 4 % 6];
    let bit = 1 << r.below(32);
    let any = r.next() as u32;
    let choices = [
        old.wrapping_add(1),
        old.wrapping_sub(1),
        limit,
        limit + 1,
        0,
        u32::MAX,
        old ^ bit,
        any,
        old.wrapping_add(8),
    ];
    put(bytes, word, &r.of(&choices).to_le_bytes());
}

/// A shorter or longer slice, sometimes with a total that says so.
fn length(r: &mut Random, bytes: &mut Vec<u8>) {
    let old = bytes.len();
    match r.below(6) {
        0 => bytes.truncate(r.below(57)),
        1 => bytes.truncate(r.below(old + 1)),
        2 => bytes.truncate(old - r.of(&[1, 4, 8])),
        3 => bytes.push(0),
        _ => bytes.extend(vec![r.next() as u8; 1 + r.below(20)]),
    }
    if bytes.len() >= 56 && r.chance(40) {
        let total = bytes.len() as u32;
        put(bytes, 48, &total.to_le_bytes());
    }
}

/// Starts and lists: a wrong start, a road in another's part, twice or not at all.
fn lists(r: &mut Random, s: &mut Sheet) {
    let full: Vec<usize> = (0..s.nodes).filter(|i| !s.lists[*i].is_empty()).collect();
    if full.is_empty() {
        return;
    }
    let node = r.of(&full);
    let other = r.below(s.nodes);
    match r.below(4) {
        0 => {
            let road = s.lists[node].pop().unwrap();
            s.lists[other].push(road);
        }
        1 => s.lists[node][0] = r.below(s.roads.len()),
        2 => {
            let road = r.below(s.roads.len());
            s.roads[road].source = other;
        }
        _ => {
            let from = r.of(&full);
            let road = s.lists[node][0];
            s.lists[node][0] = s.lists[from][0];
            s.lists[from][0] = road;
        }
    }
}

/// Rows: out of order, twice, at another point.
fn rows(r: &mut Random, s: &mut Sheet) {
    let full: Vec<usize> = (0..s.points.len())
        .filter(|i| !s.points[*i].rows.is_empty())
        .collect();
    if full.is_empty() {
        return;
    }
    let point = r.of(&full);
    let rows = &mut s.points[point].rows;
    let which = r.below(rows.len());
    match r.below(4) {
        0 => rows.reverse(),
        1 if rows.len() < 64 => rows.insert(which, rows[which].clone()),
        2 => {
            let row = rows.remove(which);
            let to = r.below(s.points.len());
            s.points[to].rows.push(row);
        }
        _ => rows[which].road = r.below(s.roads.len()),
    }
    s.points.iter_mut().for_each(|p| p.rows.truncate(64));
}

/// Goal rows: missing, equal, falling.
fn goals(r: &mut Random, s: &mut Sheet) {
    if s.goals.is_empty() {
        return;
    }
    let which = r.below(s.goals.len());
    match r.below(4) {
        0 => {
            s.goals.remove(which);
        }
        1 => s.goals.insert(which, s.goals[which].clone()),
        2 => s.goals.reverse(),
        _ => s.goals[which].0 = r.below(s.nodes),
    }
}

/// More than a sheet may have, with offsets that fit; or a point along line of another number of points.
fn counts(r: &mut Random, s: &mut Sheet) {
    match r.below(12) {
        0..=3 => {
            let more = r.of(&[16, 17, 18]);
            let plain = Point {
                dnp: 0.0,
                bearing: 0,
                frc: 0,
                fow: 0,
                limit: None,
                rows: vec![],
            };
            s.points.resize(more, plain);
        }
        4 => {
            let nodes = r.of(&[1024, 1025]);
            s.goals.clear();
            s.lists.resize(nodes, vec![]);
            s.from_first.resize(nodes, 0.0);
            s.from_last.resize(nodes, 0.0);
            s.nodes = nodes;
        }
        5 => {
            let count = r.of(&[4096, 4097]);
            while !s.roads.is_empty() && s.roads.len() < count {
                let road = s.roads[0].clone();
                s.lists[road.source].push(s.roads.len());
                s.roads.push(road);
            }
        }
        _ => {
            s.kind = r.of(&[0, 2, 2, 2, 3, 9, 10, 255]);
            if r.chance(50) {
                s.points.truncate(r.below(4));
            }
        }
    }
}

/// An area that is too small, or just large enough.
fn area(r: &mut Random, s: &Sheet, areas: &mut Areas) {
    let least = Areas::least(s.points.len(), s.nodes, 1);
    let which = r.of(&DRAWN);
    let short = match r.below(4) {
        0 => 0,
        1 => usize::MAX,
        _ => 1 + r.below(2),
    };
    if let Some(i) = which {
        areas.0[i] = least.0[i].saturating_sub(short);
    }
}

/// Damages a sheet and its areas in one or several ways. The result need not be refused.
pub fn damage(r: &mut Random, sheet: &Sheet, areas: &mut Areas) -> Vec<u8> {
    let mut s = sheet.clone();
    let mut ways = vec![r.below(10)];
    while r.chance(20) {
        ways.push(r.below(10));
    }
    for way in &ways {
        match way {
            0 => lists(r, &mut s),
            1 => rows(r, &mut s),
            2 => goals(r, &mut s),
            3 => counts(r, &mut s),
            _ => {}
        }
    }
    let mut bytes = s.bytes();
    for way in &ways {
        match way {
            4..=6 => one_field(r, &s, &mut bytes),
            7 => header(r, &mut bytes),
            8 => area(r, &s, areas),
            9 => {
                let at = r.below(bytes.len());
                bytes[at] = bytes[at].wrapping_add(1 << r.below(8));
            }
            _ => {}
        }
    }
    if r.chance(8) {
        length(r, &mut bytes);
    }
    bytes
}
