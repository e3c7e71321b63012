//! Demand 3 by running: sheets that are alike but for closed roads.

use sheets::{Random, Road, Sheet};

/// Whether a class number exceeds a limit even with the tolerance added, without the cap at 7.
fn exceeds(s: &Sheet, limit: Option<u8>, class: u8) -> bool {
    limit.is_some_and(|l| class as u32 > l as u32 + s.settings.frc_tolerance as u32)
}

/// The least class number that every leg's limit excludes.
fn closing_class(s: &Sheet) -> Option<u8> {
    let legs = &s.points[..s.points.len().saturating_sub(1)];
    (0..8).find(|class| legs.iter().all(|p| exceeds(s, p.limit, *class)))
}

fn named(s: &Sheet, road: usize) -> bool {
    s.points
        .iter()
        .any(|p| p.rows.iter().any(|w| w.road == road))
}

fn closed(s: &Sheet, road: usize) -> bool {
    let least = closing_class(s);
    let r = &s.roads[road];
    r.fow != 6 && least.is_some_and(|c| r.frc >= c) && !named(s, road)
}

/// A sheet alike to this one: its closed roads taken out or changed, and others added. None where no road can be closed.
pub fn alike(r: &mut Random, s: &Sheet) -> Option<Sheet> {
    let least = closing_class(s)?;
    if s.nodes == 0 {
        return None;
    }
    let mut t = s.clone();
    for road in (0..s.roads.len()).filter(|i| closed(s, *i)) {
        t.roads[road] = closed_road(r, s, least);
        t.lists
            .iter_mut()
            .for_each(|list| list.retain(|x| *x != road));
        insert(r, &mut t, road);
    }
    // Roads not closed keep their numbers, so only closed ones at the end can go.
    while r.chance(50) && !t.roads.is_empty() && closed(&t, t.roads.len() - 1) {
        let last = t.roads.len() - 1;
        t.roads.pop();
        t.lists
            .iter_mut()
            .for_each(|list| list.retain(|x| *x != last));
    }
    for _ in 0..r.below(6) {
        t.roads.push(closed_road(r, s, least));
        let number = t.roads.len() - 1;
        insert(r, &mut t, number);
    }
    Some(t)
}

fn closed_road(r: &mut Random, s: &Sheet, least: u8) -> Road {
    Road {
        id: r.next(),
        length: 1.0 + r.metres(50),
        source: r.below(s.nodes),
        target: r.below(s.nodes),
        frc: least + r.below(8 - least as usize) as u8,
        fow: r.of(&[3, 0, 7]),
        access: r.chance(30),
    }
}

/// Anywhere in its source's list.
fn insert(r: &mut Random, t: &mut Sheet, road: usize) {
    let list = &mut t.lists[t.roads[road].source];
    list.insert(r.below(list.len() + 1), road);
}

/// With snapping off and no road of length 0 on either, all of the answer and both lists are equal.
pub fn whole(s: &Sheet, t: &Sheet) -> bool {
    let lengths = s.roads.iter().chain(&t.roads);
    !s.settings.snap && lengths.into_iter().all(|r| r.length > 0.0)
}
