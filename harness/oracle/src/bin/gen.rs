//! gen KIND SEED: writes the sheet of a seed to standard output, and its family and areas to standard error.
//! gen words KIND SEED: the same in words. KIND: well-formed, damaged, full.

use oracle::cases::{case, Kind};
use sheets::{words, Sheet};
use std::io::Write;

fn main() {
    let mut args: Vec<String> = std::env::args().skip(1).collect();
    let in_words = args.first().is_some_and(|a| a == "words");
    if in_words {
        args.remove(0);
    }
    let kind = args.first().and_then(|a| Kind::named(a));
    let seed = args.get(1).and_then(|a| a.parse().ok());
    let (Some(kind), Some(seed)) = (kind, seed) else {
        panic!("gen [words] KIND SEED");
    };
    let case = case(kind, seed);
    let mut about = format!("{}\n", case.family);
    words::describe_areas(&case.areas, &mut about);
    if in_words {
        let refused = oracle::judge::refusal(&case.bytes, &case.areas);
        match refused.is_some_and(|r| r.0 < 6) {
            true => words::describe_header(&case.bytes, &mut about),
            false => words::describe(&Sheet::read(&case.bytes), &mut about),
        }
        println!("{about}{}", case.expected.text());
    } else {
        eprint!("{about}");
        std::io::stdout()
            .write_all(&case.bytes)
            .expect("standard output");
    }
}
