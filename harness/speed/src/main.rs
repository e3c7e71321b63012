//! speed [SET [SHEETS]]: the port against the original Rust on the same sheets, in one process, alternating.
//! speed twice SET [SHEETS]: two calls of each on every sheet, to count instructions by.
//! SET: small, desk, full, heavy, refused; all without it.

mod sets;
mod timing;

use sets::{Set, SETS};
use timing::{timed, twice, Spent};

fn main() {
    let args: Vec<String> = std::env::args().skip(1).collect();
    let counting = args.first().is_some_and(|a| a == "twice");
    let args = &args[counting as usize..];
    let count = args.get(1).map(|a| a.parse().expect("a number of sheets"));
    if !counting {
        println!("microseconds a call, mean over the set: best of the rounds, median");
    }
    for set in SETS {
        if args.first().is_some_and(|name| name != set.name) {
            continue;
        }
        let sheets = set.sheets(count);
        if counting {
            sheets.iter().for_each(twice);
            println!("{}: {} sheets", set.name, sheets.len());
        } else {
            print(set, &sheets.iter().map(timed).collect::<Vec<Spent>>());
        }
    }
}

/// The set's mean times and how many times faster the port is: by the means, and at least on any sheet.
fn print(set: &Set, spent: &[Spent]) {
    let mean = |time: fn(&Spent) -> f64| spent.iter().map(time).sum::<f64>() / spent.len() as f64;
    let original = [mean(|s| s.original.best), mean(|s| s.original.median)];
    let with_lists = [mean(|s| s.with_lists.best), mean(|s| s.with_lists.median)];
    let decode = [mean(|s| s.decode().best), mean(|s| s.decode().median)];
    let port = [mean(|s| s.port.best), mean(|s| s.port.median)];
    let judge = [mean(|s| s.judge.best), mean(|s| s.judge.median)];
    println!("{}, {} sheets", set.name, spent.len());
    let line = |name: &str, time: [f64; 2]| println!("  {name} {:.2} {:.2}", time[0], time[1]);
    line("original", original);
    line("original with lists", with_lists);
    line("decode", decode);
    line("judge", judge);
    let faster = |name: &str, than: [f64; 2], time: [f64; 2], ratio: fn(&Spent) -> f64| {
        let [best, median] = [than[0] / time[0], than[1] / time[1]];
        let least = spent.iter().map(ratio).fold(f64::INFINITY, f64::min);
        let slower = spent.iter().filter(|s| ratio(s) < 1.0).count();
        println!("  {name} is {best:.1} {median:.1} times faster, least {least:.2}, slower on {slower} sheets");
    };
    faster("decode", original, decode, |s| {
        s.original.best / s.decode().best
    });
    faster(
        "decode, the original with lists,",
        with_lists,
        decode,
        |s| s.with_lists.best / s.decode().best,
    );
    faster("decode with judge", original, port, |s| {
        s.original.best / s.port.best
    });
}
