//! What the example `show` says of sheets, well-formed and damaged.

mod common;

#[allow(dead_code)]
#[path = "../examples/show.rs"]
mod show;

use common::{cases, sample, samples};
use hemokatu::judge;
use show::in_words;

#[test]
fn a_sheet_in_words() {
    let text = in_words(&sample("s1"));
    for line in [
        "a sheet of 400 bytes",
        "  kind 1 (line)",
        "  number of points 2",
        "  search_radius_m 100",
        "  max_candidates 10",
        "point 0 (byte 168): DNP 50 m, bearing 90°, FRC 3, FOW 3 (single carriageway), LFRCNP 3, row count 1",
        "point 1 (byte 192): DNP 0 m, bearing 90°, FRC 3, FOW 3 (single carriageway), LFRCNP 255 (no path entry), row count 1",
        "road 0 (byte 216): id 700, length 100 m, source 0, target 1, FRC 3, FOW 3 (single carriageway), access flag 0",
        "lists, where each node's roads begin (byte 248): 0 1 1",
        "lists, roads that leave node 0 (byte 260): 0",
        "row 0 of point 1 (byte 304): road 0, distance 0 m, bearing 90°, along 75 m, line length 100 m",
        "metres from the last point to each node (byte 360): 0 0",
        "goal row 0 (byte 376): node 0",
        "goal row 0, metres to node 0 from each node (byte 384): 0 0",
        "well-formed",
    ] {
        assert!(text.lines().any(|l| l == line), "{line}\n{text}");
    }
    assert!(!text.contains(">>"));
}

#[test]
fn what_is_wrong_is_marked() {
    for (name, marked, reason) in [
        (
            "refused_2",
            ">>number of points 17<<",
            "  ^ number of points of the header is 17, and may be 0 to 16",
        ),
        (
            "refused_3",
            ">>total length 401<<",
            "  ^ total length of the header is 401, and may be 400",
        ),
        (
            "refused_4",
            ">>length -0 m<<",
            "  ^ length of road 0 (id 700) is -0, and may be 0 to 10000000, not -0",
        ),
        (
            "refused_5",
            ">>0<<",
            "  ^ road 0 leaves node 0, and is listed for node 1",
        ),
    ] {
        let text = in_words(&sample(name));
        assert!(text.contains(marked), "{text}");
        assert!(text.lines().any(|line| line == reason), "{text}");
    }
    let text = in_words(&sample("refused_1"));
    assert_eq!(
        text,
        "a sheet of 55 bytes\nmalformed, refused 1 0 0: the sheet is under 56 bytes\n"
    );
}

/// Of every damaged sheet that is stored something is marked, and nothing of a well-formed one.
#[test]
fn every_malformed_sheet_has_a_mark() {
    let files = cases::files();
    let mut malformed = [0; 6];
    let damaged = cases::all(&files).map(|case| case.sheet().to_vec());
    for sheet in damaged.chain(samples::all().into_iter().map(|(_, sheet)| sheet)) {
        let text = in_words(&sheet);
        match judge(&sheet) {
            Ok(()) => assert!(text.ends_with("\nwell-formed\n") && !text.contains(">>")),
            Err(refusal) => {
                let number = refusal.number();
                malformed[number] += 1;
                assert!(text.contains(&format!("malformed, refused {number} ")));
                let marks = text.matches(">>").count();
                let reasons = text.lines().filter(|line| line.starts_with("  ^ ")).count();
                assert_eq!(marks, reasons);
                assert!(number == 1 || marks > 0, "{text}");
            }
        }
    }
    assert!(
        malformed[1..].iter().all(|count| *count > 20),
        "{malformed:?}"
    );
}
