//! Answers a sheet as the list program does, in areas that grow: `list FILE`, or `-` for standard input.
//! `decode.sh` takes it for sheets above 48 KiB. Ends with 0 for a path, 1 for a refusal, 2 for a file that cannot be read.

use hemokatu::{list_text, Decoder};
use std::io::Read;
use std::process::ExitCode;

fn main() -> ExitCode {
    let words: Vec<_> = std::env::args_os().skip(1).collect();
    let [file] = words.as_slice() else {
        eprintln!("usage: list FILE, or list - for standard input");
        return ExitCode::from(2);
    };
    let mut sheet = vec![];
    let read = if file == "-" {
        std::io::stdin().read_to_end(&mut sheet).map(|_| ())
    } else {
        std::fs::read(file).map(|bytes| sheet = bytes)
    };
    if let Err(e) = read {
        eprintln!("list: {}: {e}", file.to_string_lossy());
        return ExitCode::from(2);
    }
    let mut decoder = Decoder::new();
    let answer = decoder.decode(&sheet);
    print!("{}", list_text(&answer));
    ExitCode::from(answer.is_err() as u8)
}
