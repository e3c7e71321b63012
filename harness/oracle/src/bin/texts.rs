//! texts PROGRAM COUNT [SEED]: the whole text of the list program against the oracle's, on COUNT well-formed and COUNT damaged sheets that fit it and COUNT/10 that use up its heap, or nearly, of seeds from SEED (1) on, and on a few that are too long.
//! Each sheet is one start of the program, with the sheet as its standard input.

use oracle::cases::{case, Kind};
use sheets::{families, Areas, Random};
use std::collections::BTreeMap;
use std::io::Write;
use std::process::{Command, Stdio};

/// The program takes no larger sheet.
const MOST_BYTES: usize = 48 * 1024;

/// Sheets above it.
const TOO_LONG: usize = 20;

#[derive(Default)]
struct Tally {
    compared: usize,
    differ: usize,
    by_number: [usize; 12],
    most_roads: usize,
    families: BTreeMap<&'static str, usize>,
}

fn main() {
    let args: Vec<String> = std::env::args().skip(1).collect();
    let program = args.first().expect("texts PROGRAM COUNT [SEED]");
    let count: usize = args[1].parse().expect("a number");
    let first: u64 = args.get(2).map_or(1, |a| a.parse().expect("a seed"));
    let mut tally = Tally::default();
    for kind in [Kind::WellFormed, Kind::Damaged] {
        let wanted = tally.compared + count;
        let mut seed = first;
        while tally.compared < wanted {
            let case = case(kind, seed);
            compare(program, case.family, &case.bytes, seed, &mut tally);
            seed += 1;
        }
    }
    for seed in first..first + count as u64 / 10 {
        let bytes = families::misled(&mut Random::new(seed)).bytes();
        compare(program, "misled", &bytes, seed, &mut tally);
    }
    let differ = too_long(program, first);
    let [matched, refused @ ..] = tally.by_number;
    let families = tally.families;
    println!(
        "texts of the list program: {} compared, {} differ",
        tally.compared + TOO_LONG,
        tally.differ + differ
    );
    println!("  {matched} matched, up to {} roads; refused 1 to 11: {refused:?}; {TOO_LONG} too long; {families:?}", tally.most_roads);
    std::process::exit((tally.differ + differ > 0) as i32);
}

/// A sheet that fits, with the program's own areas.
fn compare(program: &str, family: &'static str, bytes: &[u8], seed: u64, tally: &mut Tally) {
    if bytes.len() > MOST_BYTES {
        return;
    }
    let expected = oracle::call(bytes, &Areas::of_roadlist());
    tally.compared += 1;
    tally.by_number[expected.answer.number()] += 1;
    tally.most_roads = tally.most_roads.max(expected.ids.len());
    *tally.families.entry(family).or_default() += 1;
    let text = expected.text();
    let got = printed(program, bytes);
    if got != text.as_bytes() {
        tally.differ += 1;
        println!(
            "{family}, seed {seed}: oracle\n{text}program\n{}",
            String::from_utf8_lossy(&got)
        );
    }
}

/// How many sheets of full size are not told to be too long.
fn too_long(program: &str, first: u64) -> usize {
    let sheets = (first..).map(|seed| case(Kind::Full, seed).bytes);
    let long = sheets.filter(|b| b.len() > MOST_BYTES).take(TOO_LONG);
    long.filter(|b| printed(program, b) != b"large\n").count()
}

fn printed(program: &str, sheet: &[u8]) -> Vec<u8> {
    let mut child = Command::new(program)
        .stdin(Stdio::piped())
        .stdout(Stdio::piped())
        .spawn()
        .expect("the list program");
    // It reads no more than it takes, and may be gone before the rest is written.
    let _ = child.stdin.take().unwrap().write_all(sheet);
    let out = child.wait_with_output().expect("its output");
    assert!(out.status.success(), "{}", out.status);
    out.stdout
}
