//! A slip road that is shorter and dearer than the way round, little room left by the start road, and distances that overestimate:
//! a node is labelled anew after its successor, so that the cost kept at the goal is not the sum of the roads found.

use crate::build::{on, point, road, sheet, shuffled, sometimes_along};
use crate::random::Random;
use crate::Sheet;

pub fn kept(r: &mut Random) -> Sheet {
    let slack = r.of(&[18.0, 20.0, 24.0, 40.0]);
    let start = r.of(&[480.0, 470.0, 460.0, 520.0]);
    let (direct, first, second) = (8 + r.below(5), 9 + r.below(6), 9 + r.below(6));
    let exit = (3 + r.below(4)) as f64;
    let mut roads = vec![
        road(1, 5, 0, 1000.0),
        road(2, 0, 1, direct as f64),
        road(3, 0, 2, first as f64),
        road(4, 2, 1, second as f64),
        road(5, 1, 3, exit),
        road(6, 3, 4, 100.0),
    ];
    roads[1].fow = r.of(&[6, 6, 6, 3]);
    roads[1].access = r.chance(50);
    roads[4].access = r.chance(30);
    if r.chance(40) {
        roads.push(road(7, 2, 3, (10 + r.below(40)) as f64));
    }
    if r.chance(30) {
        roads.push(road(8, 1, 2, 1.0));
    }
    let lists = shuffled(r, &roads, 6);
    let mut starts = vec![on(0, 1.0, 1000.0 - start, 1000.0)];
    if r.chance(25) {
        starts.push(on(4, 30.0, 0.0, exit));
    }
    let part = (500.0 - slack - start).clamp(0.0, 100.0);
    let mut ends = vec![on(5, 0.0, part, 100.0)];
    if r.chance(25) {
        ends.insert(0, on(4, 20.0, exit, exit));
    }
    let dnp = r.of(&[480.0, 500.0, 450.0]);
    let points = vec![point(dnp, Some(3), starts), point(0.0, None, ends)];
    let far = [
        0.0,
        0.0,
        r.of(&[50.0, 30.0, 20.0]),
        r.of(&[100.0, 70.0, 40.0]),
        0.0,
        0.0,
    ];
    let wild = r.chance(30);
    let mut s = sheet(6, roads, lists, points, |v, _| {
        if wild {
            r.metres(120)
        } else {
            far[v]
        }
    });
    s.settings.search_factor = 1.0;
    s.settings.snap = r.chance(50);
    if r.chance(30) {
        s.settings.slip_penalty = 40.0;
    }
    sometimes_along(r, &mut s, 40);
    s
}
