//! The smallest sheet of a difference: parts are taken out as long as both still differ.

use oracle::Outcome;
use sheets::{Areas, Sheet};

use crate::port::Port;

/// How port and oracle differ on a case, if they do.
pub fn difference(
    port: &mut Port,
    bytes: &[u8],
    areas: &Areas,
    expected: &Outcome,
) -> Option<String> {
    let judged = oracle::judge::refusal(bytes, areas).filter(|j| j.0 < 6);
    if port.judge(bytes) != judged {
        return Some(format!(
            "judged {:?}, expected {judged:?}\n",
            port.judge(bytes)
        ));
    }
    match port.call(bytes, areas) {
        Ok(got) if got == *expected => None,
        Ok(got) => Some(format!("port:\n{}oracle:\n{}", got.text(), expected.text())),
        Err(wrong) => Some(format!("port: {wrong}\noracle:\n{}", expected.text())),
    }
}

fn differs(port: &mut Port, sheet: &Sheet, areas: &Areas) -> bool {
    let bytes = sheet.bytes();
    difference(port, &bytes, areas, &oracle::call(&bytes, areas)).is_some()
}

/// A smaller sheet that still differs. The areas stay.
pub fn shrink(port: &mut Port, sheet: &Sheet, areas: &Areas) -> Sheet {
    let mut best = sheet.clone();
    loop {
        let smaller = candidates(&best)
            .into_iter()
            .find(|s| differs(port, s, areas));
        match smaller {
            Some(s) => best = s,
            None => return best,
        }
    }
}

fn candidates(s: &Sheet) -> Vec<Sheet> {
    let mut all = vec![];
    for i in 0..s.points.len() {
        if s.kind != 2 {
            let mut t = s.clone();
            t.points.remove(i);
            all.push(t);
        }
        for j in 0..s.points[i].rows.len() {
            let mut t = s.clone();
            t.points[i].rows.remove(j);
            all.push(t);
        }
    }
    let named = |i: usize| s.points.iter().any(|p| p.rows.iter().any(|w| w.road == i));
    all.extend(
        (0..s.roads.len())
            .filter(|i| !named(*i))
            .map(|i| without_road(s, i)),
    );
    for i in 0..s.goals.len() {
        let mut t = s.clone();
        t.goals.remove(i);
        all.push(t);
    }
    all
}

/// Without a road that no row names; later roads move down by one.
fn without_road(s: &Sheet, road: usize) -> Sheet {
    let mut t = s.clone();
    t.roads.remove(road);
    for list in &mut t.lists {
        list.retain(|r| *r != road);
        list.iter_mut().filter(|r| **r > road).for_each(|r| *r -= 1);
    }
    for row in t.points.iter_mut().flat_map(|p| &mut p.rows) {
        if row.road > road {
            row.road -= 1;
        }
    }
    t
}
