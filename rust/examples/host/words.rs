//! Reference and answer in words.

use crate::located::Located;
use crate::network::Network;
use crate::reference::Reference;
use hemokatu::{Kind, Match};

/// So many of a thing.
pub fn counted(count: usize, thing: &str) -> String {
    match count {
        1 => format!("1 {thing}"),
        _ => format!("{count} {thing}s"),
    }
}

/// A few lines on a reference.
pub fn of_reference(reference: &Reference) -> String {
    let points = counted(reference.points.len(), "point");
    let mut text = format!("{}, {points}\n", reference.kind);
    for (number, point) in reference.points.iter().enumerate() {
        text += &format!(
            "  point {number} at {:.6} {:.6}, bearing {:.1}, FRC {}, FOW {}",
            point.at.lon, point.at.lat, point.bearing, point.frc, point.fow
        );
        if let Some(way) = point.way {
            text += &format!(
                "; {:.1} m to the next, class {} at the lowest",
                way.dnp_m, way.lfrcnp
            );
        }
        text += "\n";
    }
    let part = |offset: f64| format!("{:.1} % of the", 100.0 * offset);
    match (reference.kind, reference.start_offset) {
        (_, None) => {}
        (Kind::PointAlongLine, Some(offset)) => {
            text += &format!("  the point lies after {} leg\n", part(offset))
        }
        (_, Some(offset)) => text += &format!("  it begins after {} first leg\n", part(offset)),
    }
    if let Some(offset) = reference.end_offset {
        text += &format!("  it ends before the last {} last leg\n", part(offset));
    }
    text
}

/// The matched roads, one line for each stretch of a street, and what of them is the location.
pub fn of_match(
    network: &Network,
    reference: &Reference,
    found: &Match,
    located: &Located,
) -> String {
    let mut text = format!(
        "path of {}, {:.1} m from the first point to the last\n",
        counted(found.ids.len(), "road"),
        found.length_m
    );
    for stretch in stretches(network, &located.roads) {
        let ids: Vec<String> = stretch.iter().map(|road| name(network, *road)).collect();
        let metres: f64 = stretch
            .iter()
            .map(|road| network.roads[*road].length_m)
            .sum();
        let street = &network.street_of(stretch[0]).name;
        text += &format!("  {street}, {metres:.1} m: {}\n", ids.join(", "));
    }
    text += &format!(
        "its first point lies {:.1} m after the path's start, its last {:.1} m before the end\n",
        found.start_offset_m, found.end_offset_m
    );
    text += &match reference.kind {
        Kind::PointAlongLine => format!(
            "the point lies {}\n",
            place(network, located, located.from_m)
        ),
        _ => format!(
            "the location runs from {} to {}\n",
            place(network, located, located.from_m),
            place(network, located, located.to_m)
        ),
    };
    if let Some(primary) = network.road_number(found.primary) {
        text += &format!(
            "most of it, {:.1} m, on {}, {}\n",
            found.coverage_m,
            network.street_of(primary).name,
            name(network, primary)
        );
    }
    text
}

/// A road as the file has it, with its direction.
fn name(network: &Network, road: usize) -> String {
    let id = network.street_of(road).id;
    match network.roads[road].is_back() {
        false => format!("road {id}"),
        true => format!("road {id} back"),
    }
}

/// A place on the path.
fn place(network: &Network, located: &Located, metres: f64) -> String {
    let mut rest = metres;
    for (position, road) in located.roads.iter().enumerate() {
        let length = network.roads[*road].length_m;
        if rest <= length || position + 1 == located.roads.len() {
            return format!(
                "{rest:.1} m along {} ({})",
                name(network, *road),
                network.street_of(*road).name
            );
        }
        rest -= length;
    }
    "nowhere".to_string()
}

/// Neighbours of one name together.
fn stretches<'a>(network: &Network, roads: &'a [usize]) -> Vec<&'a [usize]> {
    let same = |a: &usize, b: &usize| network.street_of(*a).name == network.street_of(*b).name;
    roads.chunk_by(same).collect()
}
