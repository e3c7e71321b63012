//! Sheets from parts: what the families have in common.

use crate::random::Random;
use crate::{Point, Road, Row, Settings, Sheet};

/// A road of class 3 and FOW 3.
pub fn road(id: u64, source: usize, target: usize, length: f64) -> Road {
    Road {
        id,
        length,
        source,
        target,
        frc: 3,
        fow: 3,
        access: false,
    }
}

/// A point of class 3, FOW 3 and bearing 90.
pub fn point(dnp: f64, limit: Option<u8>, rows: Vec<Row>) -> Point {
    Point {
        dnp,
        bearing: 90,
        frc: 3,
        fow: 3,
        limit,
        rows,
    }
}

/// A row of bearing 90.
pub fn on(road: usize, distance: f64, along: f64, length: f64) -> Row {
    Row {
        road,
        distance,
        bearing: 90.0,
        along,
        length,
    }
}

/// The roads leaving each node, by number.
pub fn in_order(roads: &[Road], nodes: usize) -> Vec<Vec<usize>> {
    let mut lists = vec![vec![]; nodes];
    for (i, road) in roads.iter().enumerate() {
        lists[road.source].push(i);
    }
    lists
}

/// The roads leaving each node, in any order.
pub fn shuffled(r: &mut Random, roads: &[Road], nodes: usize) -> Vec<Vec<usize>> {
    let mut lists = in_order(roads, nodes);
    lists.iter_mut().for_each(|list| r.shuffle(list));
    lists
}

/// The nodes that need a goal row.
fn goal_nodes(points: &[Point], roads: &[Road]) -> Vec<usize> {
    let rows = points.iter().skip(1).flat_map(|p| &p.rows);
    let mut nodes: Vec<usize> = rows.map(|w| roads[w.road].source).collect();
    nodes.sort();
    nodes.dedup();
    nodes
}

/// A line with default settings, distances 0 to both end points and the goal rows that are needed, by `ahead(node, goal)`.
pub fn sheet(
    nodes: usize,
    roads: Vec<Road>,
    lists: Vec<Vec<usize>>,
    points: Vec<Point>,
    mut ahead: impl FnMut(usize, usize) -> f64,
) -> Sheet {
    let goals = goal_nodes(&points, &roads);
    let goals = goals
        .into_iter()
        .map(|goal| (goal, (0..nodes).map(|node| ahead(node, goal)).collect()))
        .collect();
    Sheet {
        kind: 1,
        nodes,
        settings: Settings::default(),
        points,
        roads,
        lists,
        from_first: vec![0.0; nodes],
        from_last: vec![0.0; nodes],
        goals,
    }
}

/// Goal rows nobody asks for.
pub fn add_goals(r: &mut Random, s: &mut Sheet, percent: usize) {
    for node in 0..s.nodes {
        if r.chance(percent) && s.goals.iter().all(|g| g.0 != node) {
            let distances = (0..s.nodes).map(|_| r.metres(200)).collect();
            s.goals.push((node, distances));
        }
    }
    s.goals.sort_by_key(|g| g.0);
}

/// A point along line, where a line of two points may be one.
pub fn sometimes_along(r: &mut Random, s: &mut Sheet, percent: usize) {
    if s.points.len() == 2 && r.chance(percent) {
        s.kind = 2;
    }
}
