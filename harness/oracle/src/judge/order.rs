//! Refusal 5: lists, row sum, goal rows and rows.

use super::{word, Head};

/// The first rule of refusal 5 that a sheet breaks whose fields are all in range.
pub(crate) fn broken_rule(bytes: &[u8], h: &Head) -> Option<&'static str> {
    let [_, points, roads, lists, rows, distances, _] = h.sections();
    let words = |at: usize, step: usize, count: usize| -> Vec<usize> {
        (0..count).map(|i| word(bytes, at + step * i)).collect()
    };
    let source = |road: usize| word(bytes, roads + 32 * road + 16);
    let starts = words(lists, 4, h.nodes + 1);
    let listed = words(lists + 4 * (h.nodes + 1), 4, h.roads);
    let counts = words(points + 16, 24, h.points);
    let named = words(rows, 40, h.rows);
    let goals = words(distances + 16 * h.nodes, 8 + 8 * h.nodes, h.goals);
    broken_starts(&starts, h.roads)
        .or_else(|| broken_lists(&starts, &listed, source))
        .or_else(|| (counts.iter().sum::<usize>() != h.rows).then_some("row sum"))
        .or_else(|| not_rising(&goals, ["equal goal rows", "falling goal rows"]))
        .or_else(|| broken_rows(&counts, &named, &goals, source))
}

/// "first 0, last E, never falling"
fn broken_starts(starts: &[usize], roads: usize) -> Option<&'static str> {
    if starts[0] != 0 {
        return Some("first start");
    }
    if starts[starts.len() - 1] != roads {
        return Some("last start");
    }
    let falls = starts.windows(2).any(|w| w[0] > w[1]);
    falls.then_some("falling starts")
}

/// "each in its source's part once": as many are listed as there are roads, so without a road twice none is missing.
fn broken_lists(
    starts: &[usize],
    listed: &[usize],
    source: impl Fn(usize) -> usize,
) -> Option<&'static str> {
    let mut seen = vec![false; listed.len()];
    for node in 0..starts.len() - 1 {
        for road in &listed[starts[node]..starts[node + 1]] {
            if source(*road) != node {
                return Some("road in another's part");
            }
            if seen[*road] {
                return Some("road listed twice");
            }
            seen[*road] = true;
        }
    }
    None
}

/// What is said of the first number that is equal to the one before it, or below it.
fn not_rising(numbers: &[usize], said: [&'static str; 2]) -> Option<&'static str> {
    let pair = numbers.windows(2).find(|w| w[0] >= w[1])?;
    Some(said[(pair[0] > pair[1]) as usize])
}

/// Roads rise within a point, and the source of each road named after the first point's rows has a goal row.
fn broken_rows(
    counts: &[usize],
    named: &[usize],
    goals: &[usize],
    source: impl Fn(usize) -> usize,
) -> Option<&'static str> {
    let mut rest = named;
    for (point, count) in counts.iter().enumerate() {
        let (own, others) = rest.split_at(*count);
        rest = others;
        let broken = not_rising(own, ["equal rows", "falling rows"]);
        if broken.is_some() {
            return broken;
        }
        let has_goal = |road: &usize| goals.contains(&source(*road));
        if point > 0 && !own.iter().all(has_goal) {
            return Some("no goal row");
        }
    }
    None
}
