//! The picture is XML, and shows what it should.

use super::round_trip::{locate, through_base64};
use super::town::town;
use crate::encode::{encode, Location};
use crate::picture::{Picture, CLOSED, PATH, POINT, TRIMMED};
use crate::reference::Reference;
use crate::route::Routes;
use crate::sheet::Measurer;
use hemokatu::{Decoder, Kind};
use std::collections::BTreeSet;

/// Tags are closed in order, and none has an attribute twice.
fn assert_xml(svg: &str) {
    let mut open: Vec<&str> = vec![];
    for part in svg.split('<').skip(1) {
        let (tag, text) = part.split_once('>').expect("a tag ends");
        assert!(
            !text.contains('&') || text.contains("&amp;") || text.contains("&lt;"),
            "{text}"
        );
        if let Some(name) = tag.strip_prefix('/') {
            assert_eq!(open.pop(), Some(name));
            continue;
        }
        // Names stand before each ="; what is quoted lies between.
        let pieces: Vec<&str> = tag.trim_end_matches('/').split('"').collect();
        assert_eq!(pieces.len() % 2, 1, "{tag}");
        let names: Vec<&str> = pieces
            .iter()
            .step_by(2)
            .filter_map(|piece| piece.trim().strip_suffix('='))
            .collect();
        let names: Vec<&str> = names
            .iter()
            .map(|name| name.rsplit(' ').next().unwrap_or(name))
            .collect();
        let once: BTreeSet<&&str> = names.iter().collect();
        assert_eq!(once.len(), names.len(), "{tag}");
        if !tag.ends_with('/') {
            open.push(tag.split(' ').next().unwrap_or(tag));
        }
    }
    assert!(open.is_empty(), "{open:?}");
}

#[test]
fn what_it_shows() {
    let town = town();
    let mut host = Measurer::new(&town);
    host.close(BTreeSet::from([101, 102]));
    let routes = Routes::new(&host);
    let path = routes.path(&routes.tree(11), 11, 86).expect("a path");
    let mut decoder = Decoder::new();
    let line = Location::Line {
        start_m: 40.0,
        end_m: 40.0,
    };
    let point = Location::Point {
        at_m: 70.0,
        side: 1,
        orientation: 1,
    };
    for location in [line, point] {
        let reference = through_base64(&encode(&routes, &path, location).expect("a reference"));
        for zoom in [false, true] {
            let picture = Picture {
                host: &host,
                reference: &reference,
                base64: "A & B <C>",
                located: locate(&host, &mut decoder, &reference),
                result: "a path".to_string(),
                zoom,
            };
            let svg = picture.draw();
            assert_xml(&svg);
            for colour in [PATH, TRIMMED, POINT, CLOSED] {
                assert!(svg.contains(colour), "{colour}");
            }
            assert!(
                svg.contains("A &amp; B &lt;C&gt;") && !svg.contains("NaN") && !svg.contains("inf")
            );
            // An edge and a fill for every open street, and one line for each closed one.
            let streets = svg.matches("<polyline").count();
            assert!(streets > 2 * (town.streets.len() - 2) + 2, "{streets}");
        }
    }
}

/// Nothing matched, nothing even to look at.
#[test]
fn without_a_path() {
    let town = town();
    let host = Measurer::new(&town);
    let reference = Reference::of(Kind::Circle);
    let picture = Picture {
        host: &host,
        reference: &reference,
        base64: "Aw==",
        located: None,
        result: "refused 7".to_string(),
        zoom: true,
    };
    let svg = picture.draw();
    assert_xml(&svg);
    assert!(svg.contains("Reference of kind circle: refused 7") && !svg.contains("NaN"));
}

/// docs/host.svg is what the command beside it in docs/MEASURE.md draws.
#[test]
fn the_picture_of_the_docs() {
    let docs = concat!(env!("CARGO_MANIFEST_DIR"), "/../docs");
    let page = std::fs::read_to_string(format!("{docs}/MEASURE.md")).unwrap();
    let command = page
        .lines()
        .find_map(|line| line.trim_start().strip_prefix("cargo run "))
        .expect("a command");
    let (_, words) = command.split_once(" -- ").expect("the host's own words");
    let file = std::env::temp_dir().join(format!("hemokatu_host_{}.svg", std::process::id()));
    let words = words.split(' ').chain(["--svg", file.to_str().unwrap()]);
    let ended = crate::run(words.map(str::to_string), &mut String::new());
    let drawn = std::fs::read_to_string(&file);
    let _ = std::fs::remove_file(&file);
    assert_eq!(ended, Ok(true));
    let kept = std::fs::read_to_string(format!("{docs}/host.svg")).unwrap();
    assert!(drawn.unwrap() == kept, "docs/host.svg is an older picture");
}

/// With nothing matched and a close look, the points fill the picture.
#[test]
fn the_points_alone() {
    let town = town();
    let host = Measurer::new(&town);
    let reference = crate::read("CwRbWyNG9RpsCQCb/jsbtAT/6/+jK1lE").expect("a line");
    let of = |zoom| {
        let picture = Picture {
            host: &host,
            reference: &reference,
            base64: "",
            located: None,
            result: "refused 9".to_string(),
            zoom,
        };
        picture.draw()
    };
    assert!(of(true).contains(">100 m</text>") && of(false).contains(">10000 m</text>"));
}
