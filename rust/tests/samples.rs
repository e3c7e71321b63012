//! The files of sheets/ are what the example `samples` writes, and answered as their `.answer` says.

mod common;

use common::samples;
use hemokatu::{judge, list_text, Decoder, Refusal};

const FOLDER: &str = concat!(env!("CARGO_MANIFEST_DIR"), "/../sheets");

fn answer(name: &str) -> String {
    std::fs::read_to_string(format!("{FOLDER}/{name}.answer")).unwrap()
}

#[test]
fn files_are_what_is_written() {
    for (name, sheet) in samples::all() {
        assert_eq!(common::sample(name), sheet, "{name}");
    }
}

/// Those of other makers too.
#[test]
fn every_sheet_has_its_answer() {
    let mut sheets = 0;
    for entry in std::fs::read_dir(FOLDER).unwrap() {
        let file = entry.unwrap().file_name().into_string().unwrap();
        if let Some(name) = file.strip_suffix(".sheet") {
            let sheet = common::sample(name);
            assert_eq!(answer(name), samples::expected(&sheet), "{name}");
            sheets += 1;
        }
    }
    assert!(sheets >= samples::all().len());
}

#[test]
fn a_decoder_gives_the_answers() {
    // the heap of the list program
    let mut decoder = Decoder::with_heap_limit(128);
    for (name, sheet) in samples::all() {
        let text = list_text(&decoder.decode(&sheet));
        if name == "refused_6" {
            // a decoder lends what the list program has not
            assert!(text.starts_with("path 62\nroad 501 "), "{text}");
            assert_eq!(answer(name), "refused 6 0 0\n");
        } else {
            assert_eq!(text, answer(name), "{name}");
        }
    }
}

#[test]
fn each_refusal_has_its_sample() {
    for number in 1..=11 {
        let text = answer(&format!("refused_{number}"));
        assert!(text.starts_with(&format!("refused {number} ")), "{text}");
    }
}

#[test]
fn what_the_samples_show() {
    let roads = |name: &str| {
        let sheet = common::sample(name);
        assert_eq!(judge(&sheet), Ok(()));
        let mut decoder = Decoder::new();
        decoder.decode(&sheet).map(|found| found.ids.to_vec())
    };
    assert_eq!(roads("legs"), Ok(vec![100, 102, 204, 214, 120, 122]));
    assert_eq!(roads("point_along"), Ok(vec![108, 110, 112, 114]));
    assert_eq!(roads("snapped"), Ok(vec![300, 301, 302]));
    assert_eq!(roads("unsnapped"), Ok(vec![300, 301]));
    assert_eq!(roads("refused_9"), Err(Refusal::NoCandidate { point: 1 }));
    assert_eq!(roads("refused_10"), Err(Refusal::NoPath { from: 0, to: 1 }));
    // a larger heap ends the search
    assert_eq!(roads("refused_11"), Ok(vec![701]));
}

#[test]
fn the_large_sheet_is_large() {
    let sheet = samples::large();
    assert!(sheet.len() > 48 * 1024 && judge(&sheet).is_ok());
    assert_eq!(samples::expected(&sheet), "large\n");
    assert_eq!(Decoder::new().decode(&sheet).unwrap().ids.len(), 998);
}
