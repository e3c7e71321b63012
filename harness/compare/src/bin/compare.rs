//! compare KIND COUNT [SEED [first]]: the port against the oracle on COUNT sheets, of seeds from SEED (1) on; with `first` up to the first difference, which is not shown, or to a sheet without an end, for which the status is 124.
//! KIND: well-formed, damaged, full; or pairs, for sheets that are alike but for closed roads.
//! compare sizes: the least areas of all counts.

use compare::pairs::{alike, whole};
use compare::port::{least_areas, Port};
use compare::shrink::{difference, shrink};
use compare::tally::Tally;
use oracle::cases::{case, Case, Kind};
use oracle::endless;
use oracle::{Answer, Outcome};
use sheets::{families, words, Areas, Random, Sheet};

/// The smallest case that differs: its seed, bytes, areas and difference.
struct Worst {
    seed: u64,
    case: Case,
    difference: String,
}

fn main() {
    let args: Vec<String> = std::env::args().skip(1).collect();
    if args.first().is_some_and(|a| a == "sizes") {
        std::process::exit(!compare_sizes() as i32);
    }
    let count: u64 = args
        .get(1)
        .and_then(|a| a.parse().ok())
        .expect("compare KIND COUNT [SEED]");
    let first: u64 = args.get(2).map_or(1, |a| a.parse().expect("a seed"));
    let seeds = first..first + count;
    let to_the_first = args.get(3).is_some_and(|a| a == "first");
    let good = match Kind::named(&args[0]) {
        Some(kind) => compare(kind, &args[0], seeds, to_the_first),
        None if args[0] == "pairs" => compare_pairs(seeds),
        None => panic!("KIND is well-formed, damaged, full or pairs"),
    };
    std::process::exit(!good as i32);
}

fn compare(kind: Kind, name: &str, seeds: std::ops::Range<u64>, to_the_first: bool) -> bool {
    let mut port = Port::new();
    let mut tally = Tally::default();
    let mut worst: Option<Worst> = None;
    if to_the_first {
        endless::begin(seeds.start);
        endless::watch(|_| std::process::exit(124));
    }
    for seed in seeds {
        endless::begin(seed);
        let case = case(kind, seed);
        tally.add(case.family, &case.expected, &case.bytes);
        let found = difference(&mut port, &case.bytes, &case.areas, &case.expected);
        if let Some(difference) = found {
            tally.differ += 1;
            if worst
                .as_ref()
                .is_none_or(|w| case.bytes.len() < w.case.bytes.len())
            {
                worst = Some(Worst {
                    seed,
                    case,
                    difference,
                });
            }
            if to_the_first {
                break;
            }
        }
    }
    println!("{name} sheets: {tally}");
    if let Some(w) = worst.as_ref().filter(|_| !to_the_first) {
        println!("{}", describe(&mut port, w));
    }
    worst.is_none()
}

/// The smallest sheet of a difference in words.
fn describe(port: &mut Port, w: &Worst) -> String {
    let mut out = format!("seed {}, {}\n", w.seed, w.case.family);
    words::describe_areas(&w.case.areas, &mut out);
    let refused = oracle::judge::refusal(&w.case.bytes, &w.case.areas);
    if refused.is_some_and(|r| r.0 < 6) {
        words::describe_header(&w.case.bytes, &mut out);
        return out + &w.difference;
    }
    let sheet = shrink(port, &Sheet::read(&w.case.bytes), &w.case.areas);
    let bytes = sheet.bytes();
    let expected = oracle::call(&bytes, &w.case.areas);
    let difference = difference(port, &bytes, &w.case.areas, &expected);
    words::describe(&sheet, &mut out);
    out + &difference.unwrap_or_default()
}

fn compare_sizes() -> bool {
    let counts = (0..=18).flat_map(|p| (0..=1030).map(move |n| (p, n)));
    let expected = |p, n| (p <= 16 && n <= 1024).then(|| Areas::least(p, n, 1));
    let good = |(p, n): &(usize, usize)| least_areas(*p, *n) == expected(*p, *n);
    let (same, differ): (Vec<_>, Vec<_>) = counts.partition(good);
    let all = same.len() + differ.len();
    println!("least areas: {all} compared, {} differ", differ.len());
    differ.is_empty()
}

fn compare_pairs(seeds: std::ops::Range<u64>) -> bool {
    let mut port = Port::new();
    let (mut pairs, mut matched, mut wholes, mut differ) = (0, 0, 0, 0);
    let mut seed = seeds.start;
    while pairs < seeds.end - seeds.start {
        let r = &mut Random::new(seed.wrapping_mul(4).wrapping_add(3));
        seed += 1;
        let (_, sheet) = families::small(r);
        let Some(other) = alike(r, &sheet) else {
            continue;
        };
        let areas = Areas::least(sheet.points.len(), sheet.nodes, 4 + r.below(60));
        let answers = [&sheet, &other].map(|s| port.call(&s.bytes(), &areas));
        let whole = whole(&sheet, &other);
        pairs += 1;
        wholes += whole as u64;
        let number = answers[0].as_ref().map_or(99, |o| o.answer.number());
        matched += (number == 0) as u64;
        if !agree(&answers, whole) {
            differ += 1;
            println!("seed {}: {answers:?}", seed - 1);
        }
    }
    println!("pairs of sheets alike but for closed roads: {pairs} compared, {differ} differ");
    println!("  {matched} matched; {wholes} must agree in all of the answer");
    differ == 0
}

/// Both answers agree in what demand 3 says of them.
fn agree(answers: &[Result<Outcome, String>; 2], whole: bool) -> bool {
    let [Ok(one), Ok(other)] = answers else {
        return false;
    };
    match (&one.answer, &other.answer) {
        (Answer::Matched(m), Answer::Matched(n)) => {
            let core = |m: &oracle::Match| (m.length, m.primary, m.coverage);
            core(m) == core(n) && (!whole || one == other)
        }
        _ => one == other,
    }
}
