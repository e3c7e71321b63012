//! The shape of a feed server: some threads, each with a decoder of its own and its share of the sheets.
//!
//! `cargo run --example feed [FILE...]` decodes the files, or sheets/*.sheet of the repository.

use hemokatu::{Decoder, Match, Refusal};
use std::path::{Path, PathBuf};
use std::thread;

const THREADS: usize = 2;

fn main() -> std::io::Result<()> {
    let files = files()?;
    let share = files.len().div_ceil(THREADS).max(1);
    thread::scope(|scope| {
        let worker = |files| scope.spawn(move || decode_all(files));
        let workers: Vec<_> = files.chunks(share).map(worker).collect();
        for worker in workers {
            print!("{}", worker.join().expect("a worker ends"));
        }
    });
    Ok(())
}

/// The files of the command line, or the sample sheets.
fn files() -> std::io::Result<Vec<PathBuf>> {
    let mut files: Vec<PathBuf> = std::env::args_os().skip(1).map(PathBuf::from).collect();
    if files.is_empty() {
        let folder = concat!(env!("CARGO_MANIFEST_DIR"), "/../sheets");
        for entry in Path::new(folder).read_dir()? {
            files.push(entry?.path());
        }
        files.retain(|file| file.extension().is_some_and(|e| e == "sheet"));
        files.sort();
    }
    Ok(files)
}

/// The loop of one thread. The decoder's areas are kept from sheet to sheet.
fn decode_all(files: &[PathBuf]) -> String {
    let mut decoder = Decoder::new();
    let mut lines = String::new();
    for file in files {
        let name = file.file_name().unwrap_or_default().to_string_lossy();
        let line = match std::fs::read(file) {
            Ok(sheet) => in_words(decoder.decode(&sheet)),
            Err(e) => format!("not read: {e}"),
        };
        lines += &format!("{name}: {line}\n");
    }
    lines
}

fn in_words(answer: Result<Match<'_>, Refusal>) -> String {
    match answer {
        Ok(found) => {
            let roads: Vec<String> = found
                .roads()
                .map(|(id, m)| format!("{id} ({m} m)"))
                .collect();
            format!(
                "{} m on {}, from {} m after its start to {} m before its end; primary road {}",
                found.length_m,
                roads.join(", "),
                found.start_offset_m,
                found.end_offset_m,
                found.primary
            )
        }
        Err(refusal) => format!("refused {}: {refusal}", refusal.number()),
    }
}
