//! A sheet in words.

use crate::{Areas, Sheet};
use std::fmt::Write;

/// Every part of a sheet, a line for each.
pub fn describe(s: &Sheet, out: &mut String) {
    let _ = writeln!(out, "kind {}, {} nodes", s.kind, s.nodes);
    let _ = writeln!(out, "{:?}", s.settings);
    for (i, p) in s.points.iter().enumerate() {
        let limit = p.limit.map_or("none".to_string(), |l| l.to_string());
        let _ = writeln!(
            out,
            "point {i}: DNP {:?}, bearing {}, FRC {}, FOW {}, limit {limit}",
            p.dnp, p.bearing, p.frc, p.fow
        );
        for r in &p.rows {
            let _ = writeln!(
                out,
                "  on road {} at distance {:?}, bearing {:?}, along {:?} of {:?}",
                r.road, r.distance, r.bearing, r.along, r.length
            );
        }
    }
    for (i, r) in s.roads.iter().enumerate() {
        let access = if r.access { ", access" } else { "" };
        let _ = writeln!(
            out,
            "road {i}: id {}, {} to {}, length {:?}, FRC {}, FOW {}{access}",
            r.id, r.source, r.target, r.length, r.frc, r.fow
        );
    }
    for (i, list) in s.lists.iter().enumerate().filter(|(_, l)| !l.is_empty()) {
        let _ = writeln!(out, "roads leaving node {i}: {list:?}");
    }
    let _ = writeln!(out, "distances from the first point: {:?}", s.from_first);
    let _ = writeln!(out, "distances from the last point: {:?}", s.from_last);
    for (node, distances) in &s.goals {
        let _ = writeln!(out, "distances to goal {node}: {distances:?}");
    }
}

/// The header's words of bytes that need not be well-formed.
pub fn describe_header(bytes: &[u8], out: &mut String) {
    let words: Vec<u32> = bytes
        .chunks_exact(4)
        .take(14)
        .map(|w| u32::from_le_bytes(w.try_into().unwrap()))
        .collect();
    let _ = writeln!(out, "{} bytes, header {words:?}", bytes.len());
}

pub fn describe_areas(areas: &Areas, out: &mut String) {
    let named = crate::areas::NAMES.iter().zip(areas.0);
    let parts: Vec<String> = named.map(|(name, size)| format!("{name} {size}")).collect();
    let _ = writeln!(out, "areas: {}", parts.join(", "));
}
