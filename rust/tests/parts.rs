//! Well-formed sheets taken apart and built again.

mod common;

use common::cases;
use hemokatu::{judge, Kind, PathEntry, Point, Road, Row, Settings, SheetBuilder};

/// A builder with the parts of a well-formed sheet.
fn parts(sheet: &[u8]) -> SheetBuilder {
    let mut at = 0;
    let mut take = |count: usize| {
        at += count;
        &sheet[at - count..at]
    };
    let u32 = |bytes: &[u8]| u32::from_le_bytes(bytes.try_into().unwrap()) as usize;
    let f64s = |bytes: &[u8]| -> Vec<f64> {
        let value = |b: &[u8]| f64::from_le_bytes(b.try_into().unwrap());
        bytes.chunks(8).map(value).collect()
    };
    let header: Vec<usize> = take(56).chunks(4).map(u32).collect();
    let [kind, p, n, e, _, g] = header[..6].try_into().unwrap();
    let mut builder = SheetBuilder::new(Kind::of(kind).unwrap(), n);
    let numbers = f64s(take(104));
    let last = take(8);
    builder.settings(Settings::default().with(|s| {
        s.search_radius_m = numbers[0];
        s.max_bearing_diff_deg = numbers[1];
        s.max_candidate_distance_m = numbers[2];
        s.distance_weight = numbers[3];
        s.bearing_weight = numbers[4];
        s.frc_weight = numbers[5];
        s.fow_weight = numbers[6];
        s.length_tolerance = numbers[7];
        s.absolute_length_tolerance_m = numbers[8];
        s.max_search_distance_factor = numbers[9];
        s.slip_road_cost_penalty_m = numbers[10];
        s.access_road_cost_penalty_m = numbers[11];
        s.max_snap_extension_m = numbers[12];
        s.frc_tolerance = last[0];
        s.snap_to_valid_nodes = last[1] == 1;
        s.max_candidates = u16::from_le_bytes([last[2], last[3]]);
    }));
    let points: Vec<&[u8]> = (0..p).map(|_| take(24)).collect();
    for _ in 0..e {
        let r = take(32);
        builder.road(Road {
            id: u64::from_le_bytes(r[..8].try_into().unwrap()),
            length_m: f64s(&r[8..16])[0],
            source: u32(&r[16..20]),
            target: u32(&r[20..24]),
            frc: r[24],
            fow: r[25],
            access: r[26] == 1,
        });
    }
    let starts: Vec<usize> = take(4 * (n + 1)).chunks(4).map(u32).collect();
    let numbers: Vec<usize> = take(4 * e).chunks(4).map(u32).collect();
    for node in 0..n {
        builder.leaving(node, numbers[starts[node]..starts[node + 1]].to_vec());
    }
    for b in points {
        let path = (b[12] != 255).then(|| PathEntry {
            lfrcnp: b[12],
            dnp_m: f64s(&b[..8])[0],
        });
        let mut rows = vec![];
        for _ in 0..u32(&b[16..20]) {
            let r = take(40);
            let [distance_m, bearing_deg, along_m, line_length_m] =
                f64s(&r[8..]).try_into().unwrap();
            let road = u32(&r[..4]);
            rows.push(Row {
                road,
                distance_m,
                bearing_deg,
                along_m,
                line_length_m,
            });
        }
        // The builder puts them in order.
        rows.reverse();
        builder.point(Point {
            bearing_deg: u16::from_le_bytes([b[8], b[9]]),
            frc: b[10],
            fow: b[11],
            path,
            rows,
        });
    }
    builder.from_first(f64s(take(8 * n)));
    builder.from_last(f64s(take(8 * n)));
    for _ in 0..g {
        let node = u32(&take(8)[..4]);
        builder.goal(node, f64s(take(8 * n)));
    }
    builder
}

#[test]
fn stored_sheets_from_their_parts() {
    let files = cases::files();
    let mut built = 0;
    for case in cases::all(&files).filter(|case| judge(case.sheet()).is_ok()) {
        assert_eq!(parts(case.sheet()).build().unwrap(), case.sheet());
        built += 1;
    }
    assert!(built > 500, "{built} sheets");
}
