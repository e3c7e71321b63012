//! Writes the sample sheets, each with the answer of the list program beside it.
//!
//! `cargo run --example samples` writes them to sheets/ of the repository, `samples FOLDER` to another folder, and
//! `samples --large FILE` a sheet above 48 KiB. Ends with 0, or with 2 where something cannot be written.

mod plane;
mod sheets;

use std::path::{Path, PathBuf};
use std::process::ExitCode;

fn main() -> ExitCode {
    let words: Vec<_> = std::env::args_os().skip(1).collect();
    let done = match words.as_slice() {
        [] => write_all(Path::new(concat!(env!("CARGO_MANIFEST_DIR"), "/../sheets"))),
        [option, file] if option == "--large" => write(file.into(), &sheets::large()),
        [folder] if !folder.to_string_lossy().starts_with('-') => write_all(Path::new(folder)),
        _ => Err("usage: samples [FOLDER], or samples --large FILE".to_string()),
    };
    match done {
        Ok(()) => ExitCode::SUCCESS,
        Err(text) => {
            eprintln!("samples: {text}");
            ExitCode::from(2)
        }
    }
}

fn write_all(folder: &Path) -> Result<(), String> {
    for (name, sheet) in sheets::all() {
        write(folder.join(format!("{name}.sheet")), &sheet)?;
        let answer = sheets::expected(&sheet);
        write(folder.join(format!("{name}.answer")), answer.as_bytes())?;
        println!("{name}: {}", answer.lines().next().unwrap_or_default());
    }
    Ok(())
}

fn write(file: PathBuf, bytes: &[u8]) -> Result<(), String> {
    std::fs::write(&file, bytes).map_err(|e| format!("{}: {e}", file.display()))
}
