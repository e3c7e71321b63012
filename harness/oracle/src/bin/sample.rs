//! The sample of cases that crate `replay` stores. sample.sh uses this.
//!
//! sample list KIND COUNT: the cases of seeds 1 to COUNT that `replay` has areas for, smallest sheets first; of damaged ones only those that are refused 1 to 6. A line is KIND SEED, then its classes behind tabs.
//! sample write LIST FILE: the cases of a list's lines, with the oracle's answers. A line may also be `sheet PATH`: with the areas of `roadlist`.
//! sample wrong SHEETS FILE: cases that expect one thing wrong each, from three sheets of the folder SHEETS.
//! sample marks FILE MOST [FROM]: the numbers of the first MOST cases of a file, from number FROM on, that this oracle answers otherwise or without an end.
//! sample count FILE: the cases of a file by their answers.

use oracle::cases::{case, Kind};
use oracle::classes::classes;
use oracle::endless;
use oracle::stored::{read, write, Stored};
use oracle::wrong::wrong;
use sheets::Areas;
use std::os::unix::process::CommandExt;
use std::process::Command;
use std::sync::atomic::{AtomicUsize, Ordering::SeqCst};

fn main() {
    let args: Vec<String> = std::env::args().skip(1).collect();
    let args: Vec<&str> = args.iter().map(|a| a.as_str()).collect();
    match args[..] {
        ["list", kind, count] => list(kind, number(count) as u64),
        ["write", list, file] => write_list(list, file),
        ["wrong", sheets, file] => write_wrong(sheets, file),
        ["marks", file, most] => marks(file, number(most), 0),
        ["marks", file, most, from] => marks(file, number(most), number(from)),
        ["count", file] => count(file),
        _ => panic!("sample list, write, wrong, marks or count"),
    }
}

fn number(text: &str) -> usize {
    text.parse().expect("a number")
}

fn list(name: &str, count: u64) {
    let kind = Kind::named(name).expect("a kind");
    let mut lines: Vec<(usize, u64, String)> = vec![];
    for seed in 1..=count {
        let case = case(kind, seed);
        let stored = Stored {
            bytes: case.bytes,
            areas: case.areas,
            expected: case.expected,
        };
        let meant = stored.expected.untouched() == (kind == Kind::Damaged);
        if !stored.fits() || !meant {
            continue;
        }
        let classes = classes(case.family, &stored).join("\t");
        lines.push((stored.bytes.len(), seed, classes));
    }
    lines.sort();
    for (_, seed, classes) in lines {
        println!("{name} {seed}\t{classes}");
    }
}

fn write_list(list: &str, path: &str) {
    let text = std::fs::read_to_string(list).expect("the list");
    let lines = text.lines().filter(|l| !l.starts_with('#'));
    let cases: Vec<Stored> = lines.map(named).collect();
    let unfit = cases.iter().position(|c| !c.fits());
    assert_eq!(unfit, None, "a case that replay has no areas for");
    let file = write(&cases);
    assert!(read(&file) == cases, "what was written reads otherwise");
    std::fs::write(path, file).expect("a place to write");
}

fn write_wrong(sheets: &str, path: &str) {
    let [matched, zeroed, untouched] =
        ["snapped", "s2", "refused_4"].map(|name| named(&format!("sheet {sheets}/{name}.sheet")));
    let (names, file) = wrong(&matched, &zeroed, &untouched);
    println!("{} wrong: {}", names.len(), names.join(", "));
    std::fs::write(path, file).expect("a place to write");
}

/// The case of a line.
fn named(line: &str) -> Stored {
    let name = line.split('\t').next().unwrap();
    let (kind, rest) = name.split_once(' ').expect("KIND SEED");
    if kind == "sheet" {
        return Stored::of(std::fs::read(rest).expect("a sheet"), Areas::of_roadlist());
    }
    let kind = Kind::named(kind).expect("a kind");
    let case = case(kind, number(rest) as u64);
    let stored = Stored::of(case.bytes, case.areas);
    assert!(stored.expected == case.expected, "{name}: two answers");
    stored
}

/// How many more are to be found.
static MOST: AtomicUsize = AtomicUsize::new(0);

fn marks(path: &str, most: usize, from: usize) {
    let cases = read(&std::fs::read(path).expect("the file of cases"));
    MOST.store(most, SeqCst);
    let again = path.to_string();
    endless::begin(from as u64);
    endless::watch(move |case| go_on_behind(case as usize, &again));
    std::panic::set_hook(Box::new(|_| ()));
    for (number, case) in cases.iter().enumerate().skip(from) {
        if MOST.load(SeqCst) == 0 {
            return;
        }
        endless::begin(number as u64);
        // A panic is no answer either.
        let differs = std::panic::catch_unwind(|| case.differs().is_some());
        if differs.unwrap_or(true) {
            found(number);
        }
    }
}

fn found(number: usize) {
    println!("{number}");
    MOST.fetch_sub(1, SeqCst);
}

/// A case without an end is found too; the program starts again behind it.
fn go_on_behind(case: usize, path: &str) {
    found(case);
    let most = MOST.load(SeqCst).to_string();
    let from = (case + 1).to_string();
    let program = std::env::current_exe().expect("this program");
    let error = Command::new(program)
        .args(["marks", path, &most, &from])
        .exec();
    panic!("{error}");
}

fn count(path: &str) {
    let file = std::fs::read(path).expect("the file of cases");
    let mut by_number = [0; 12];
    for case in read(&file) {
        by_number[case.expected.answer.number()] += 1;
    }
    let all: usize = by_number.iter().sum();
    println!("{all} cases, {} bytes", file.len());
    println!(
        "{} matched, refused 1 to 11: {:?}",
        by_number[0],
        &by_number[1..]
    );
}
