//! Small changes that any sheet bears and stays well-formed.

use crate::build::add_goals;
use crate::random::Random;
use crate::Sheet;

/// Mostly nothing, else one change.
pub fn vary(r: &mut Random, s: &mut Sheet) {
    if !r.chance(12) {
        return;
    }
    match r.below(9) {
        0 => {
            s.kind = if s.kind == 1 {
                3 + r.below(7) as u32
            } else {
                s.kind
            }
        }
        1 => add_goals(r, s, 30),
        2 => s.settings.snap = !s.settings.snap,
        3 => one_setting(r, s),
        4 => one_distance(r, s),
        5 => equal_ids(r, s),
        6 => last_limit(r, s),
        7 => extreme(r, s),
        _ => s.settings.most_candidates = r.of(&[0, 1, 2, 3, 9, 10, 11, 64]),
    }
}

fn one_setting(r: &mut Random, s: &mut Sheet) {
    let value = match r.below(4) {
        0 => 0.0,
        1 => r.metres(100),
        2 => r.of(&[1e7, 5e-324, 0.5, 1.0, 3.0]),
        _ => r.below(20) as f64 / 8.0,
    };
    let which = r.below(13);
    *s.settings.numbers()[which] = value;
}

fn one_distance(r: &mut Random, s: &mut Sheet) {
    let rows: usize = s.points.iter().map(|p| p.rows.len()).sum();
    if rows == 0 {
        return;
    }
    let which = r.below(rows);
    let radius = s.settings.search_radius;
    let value = r.of(&[
        5.0,
        10.0,
        radius,
        35.0,
        0.0,
        4.999999999999999,
        10.000000000000002,
    ]);
    s.points
        .iter_mut()
        .flat_map(|p| &mut p.rows)
        .nth(which)
        .unwrap()
        .distance = value;
}

/// Roads are told apart by number, never by id.
fn equal_ids(r: &mut Random, s: &mut Sheet) {
    let kinds = 1 + r.below(3) as u64;
    for (i, road) in s.roads.iter_mut().enumerate() {
        road.id = u64::MAX - i as u64 % kinds;
    }
}

/// The last point's limit and DNP are read by nothing.
fn last_limit(r: &mut Random, s: &mut Sheet) {
    if let Some(p) = s.points.last_mut() {
        p.limit = Some(r.below(8) as u8);
        p.dnp = r.metres(500);
    }
}

/// A length, DNP or measurement at the ends of its range.
fn extreme(r: &mut Random, s: &mut Sheet) {
    let roads = s.roads.iter_mut().map(|x| &mut x.length);
    let rows = s.points.iter_mut().flat_map(|p| {
        let limited = p.limit.is_some();
        let dnp = limited.then_some(&mut p.dnp);
        let rows = p.rows.iter_mut();
        let measured = rows.flat_map(|w| [&mut w.distance, &mut w.along, &mut w.length]);
        dnp.into_iter().chain(measured)
    });
    let distances = s.from_first.iter_mut().chain(&mut s.from_last);
    let to_goals = s.goals.iter_mut().flat_map(|g| &mut g.1);
    let mut places: Vec<&mut f64> = roads.chain(rows).chain(distances).chain(to_goals).collect();
    for _ in 0..1 + r.below(3) {
        if !places.is_empty() {
            let which = r.below(places.len());
            *places[which] = r.of(&[1e7, 9999999.999999998, 5e-324, 1e-310, 0.0, 1.0]);
        }
    }
}
