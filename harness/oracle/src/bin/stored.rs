//! stored FILE: compares the oracle with the stored cases of crate `replay`.

use oracle::stored::read;

fn main() {
    let path = std::env::args().nth(1).expect("the file of cases");
    let file = std::fs::read(path).expect("the file of cases");
    let cases = read(&file);
    let mut differ = 0;
    for (number, case) in cases.iter().enumerate() {
        if let Some(got) = case.differs() {
            differ += 1;
            println!(
                "case {number}\nstored:\n{}oracle:\n{}",
                case.expected.text(),
                got.text()
            );
        }
    }
    println!("{} compared, {differ} differ", cases.len());
    std::process::exit((differ > 0) as i32);
}
