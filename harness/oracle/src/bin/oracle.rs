//! Reads a sheet from standard input and prints what `roadlist` must print.
//! Arguments: none for the areas of `roadlist`; four sizes (node areas, heap, coverage area, answer lists); or all eleven.

use sheets::Areas;
use std::io::Read;

/// `roadlist` takes no larger sheet.
const MOST_BYTES: usize = 48 * 1024;

fn main() {
    let sizes: Vec<usize> = std::env::args()
        .skip(1)
        .map(|a| a.parse().expect("a size"))
        .collect();
    let mut sheet = vec![];
    std::io::stdin().read_to_end(&mut sheet).expect("a sheet");
    let areas = match sizes[..] {
        [] if sheet.len() > MOST_BYTES => {
            println!("large");
            return;
        }
        [] => Areas::of_roadlist(),
        [nodes, heap, coverage, lists] => Areas::of(nodes, heap, coverage, lists),
        _ => Areas(sizes.try_into().expect("four sizes or eleven")),
    };
    print!("{}", oracle::call(&sheet, &areas).text());
}
