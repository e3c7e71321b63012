//! Links libhemokatu.a: from the folder that HEMOKATU_LIB names, else from lib/ of a release folder, else from
//! crates/hemokatu/out of the repository. There `rt lib` in crates/hemokatu writes it; that is run if the library is
//! missing or older than a file of crates/ (but for what rt keeps in out/).
//!
//! A relative HEMOKATU_LIB is taken from the workspace's folder, the one with the Cargo.lock of the build. An empty one
//! counts as unset.

use std::fs::{File, OpenOptions};
use std::io::{BufRead, BufReader, ErrorKind, Write};
use std::path::{Path, PathBuf};
use std::process::{exit, Command, Stdio};
use std::time::SystemTime;

const LIBRARY: &str = "libhemokatu.a";
const HINT: &str = "HEMOKATU_LIB=FOLDER names a folder that has one, and nothing is proved";

fn main() {
    println!("cargo:rerun-if-changed=build.rs");
    println!("cargo:rerun-if-env-changed=HEMOKATU_LIB");
    let folder = match std::env::var_os("HEMOKATU_LIB") {
        Some(folder) if !folder.is_empty() => named(Path::new(&folder)),
        _ => of_release().unwrap_or_else(of_repository),
    };
    let folder = folder.canonicalize().unwrap_or(folder);
    let folder = folder.display();
    println!("cargo:rerun-if-changed={folder}/{LIBRARY}");
    println!("cargo:rustc-link-search=native={folder}");
    println!("cargo:rustc-link-lib=static=hemokatu");
}

fn named(folder: &Path) -> PathBuf {
    let workspace = workspace();
    // an absolute one replaces it
    let whole = workspace.join(folder);
    if !whole.join(LIBRARY).exists() {
        let taken_from = match folder.is_absolute() {
            true => String::new(),
            false => format!(", which is taken from {}", workspace.display()),
        };
        fail(&format!(
            "HEMOKATU_LIB is {}{taken_from}, and there is no {}",
            folder.display(),
            whole.join(LIBRARY).display()
        ));
    }
    whole
}

/// The folder of the build's Cargo.lock, above the target folder; the crate's own where the target folder is elsewhere.
fn workspace() -> PathBuf {
    let out = std::env::var_os("OUT_DIR").map(PathBuf::from);
    let mut above = out.as_deref().into_iter().flat_map(Path::ancestors);
    above
        .find(|folder| is_locked(folder))
        .unwrap_or(Path::new(env!("CARGO_MANIFEST_DIR")))
        .to_path_buf()
}

fn is_locked(folder: &Path) -> bool {
    folder.join("Cargo.lock").exists()
}

/// The folder above the crate's.
fn root() -> PathBuf {
    let root = Path::new(env!("CARGO_MANIFEST_DIR")).join("..");
    root.canonicalize().unwrap_or(root)
}

/// A release has the library beside the crate, and nothing to build it from.
fn of_release() -> Option<PathBuf> {
    let folder = root().join("lib");
    let is_release = !root().join("crates.txt").exists() && folder.join(LIBRARY).exists();
    is_release.then_some(folder)
}

fn of_repository() -> PathBuf {
    let root = root();
    let mut sources = vec![root.join("crates.txt")];
    for folder in entries(&root.join("crates")) {
        sources.extend(entries(&folder).into_iter().filter(|path| !is_kept(path)));
    }
    for path in &sources {
        println!("cargo:rerun-if-changed={}", path.display());
    }
    let folder = root.join("crates/hemokatu/out");
    let library = folder.join(LIBRARY);
    let built = changed(&library);
    if built.is_none() || built < sources.iter().filter_map(|path| newest(path)).max() {
        build(&root, &library);
    }
    folder
}

fn build(root: &Path, library: &Path) {
    let is_there = library.exists();
    if is_there && is_read_only(library) {
        warn(&format!(
            "{} is older than crates/, and may not be written; it is used as it is",
            library.display()
        ));
        return;
    }
    let mut terminal = OpenOptions::new().write(true).open("/dev/tty").ok();
    let state = if is_there { "an older" } else { "no" };
    let text = format!(
        "there is {state} {}: `rt lib` proves the decoder and builds it, ten minutes or more. {HINT}",
        library.display()
    );
    let rt = Command::new("rt")
        .arg("lib")
        .current_dir(root.join("crates/hemokatu"))
        .stdout(Stdio::piped())
        .spawn();
    let mut rt = match rt {
        Ok(rt) => rt,
        Err(e) if e.kind() == ErrorKind::NotFound && is_there => {
            warn(&format!(
                "{LIBRARY} is older than crates/, and `rt` is not on the path to build it again"
            ));
            return;
        }
        Err(e) if e.kind() == ErrorKind::NotFound => fail(&format!(
            "no {}: put the toolchain's `rt` on the path, or {HINT}",
            library.display()
        )),
        Err(e) => fail(&format!("`rt` cannot be run: {e}")),
    };
    tell(&mut terminal, &text);
    warn(&text);
    let said = rt.stdout.take().expect("rt's output is a pipe");
    let mut name = String::new();
    for line in BufReader::new(said).lines().map_while(Result::ok) {
        // shown by cargo if this fails
        eprintln!("{line}");
        if line.starts_with("rt: chose --jobs ") {
            name = line.rsplit(' ').next().unwrap_or_default().to_string();
        } else if line.starts_with("logic=proved ") {
            tell(&mut terminal, &format!("{name} proved"));
        }
    }
    match rt.wait() {
        Ok(status) if status.success() => {}
        Ok(status) => fail(&format!(
            "`rt lib` failed ({status}); what it said stands above"
        )),
        Err(e) => fail(&format!("`rt` cannot be waited for: {e}")),
    }
}

/// Says something to who waits at the terminal: cargo shows a warning only when this program has ended.
fn tell(terminal: &mut Option<File>, text: &str) {
    if let Some(file) = terminal {
        if write!(file, "\r\x1b[Khemokatu: {text}\r\n").is_err() {
            *terminal = None;
        }
    }
}

fn warn(text: &str) {
    println!("cargo:warning={text}");
}

/// When a file was changed last.
fn changed(file: &Path) -> Option<SystemTime> {
    file.metadata().and_then(|data| data.modified()).ok()
}

/// What stands in a folder.
fn entries(folder: &Path) -> Vec<PathBuf> {
    let read = folder.read_dir().into_iter().flatten().flatten();
    read.map(|entry| entry.path()).collect()
}

/// Whether this is the folder where rt keeps what it made of a crate.
fn is_kept(path: &Path) -> bool {
    path.file_name().is_some_and(|name| name == "out")
}

/// When a file, or any file below a folder, was changed last.
fn newest(path: &Path) -> Option<SystemTime> {
    match path.read_dir() {
        Ok(entries) => entries
            .flatten()
            .filter_map(|entry| newest(&entry.path()))
            .max(),
        Err(_) => changed(path),
    }
}

fn is_read_only(file: &Path) -> bool {
    let opened = OpenOptions::new().append(true).open(file);
    opened
        .is_err_and(|e| e.kind() == ErrorKind::PermissionDenied || e.raw_os_error() == Some(EROFS))
}

/// "Read-only file system" of Linux.
const EROFS: i32 = 30;

fn fail(text: &str) -> ! {
    eprintln!("hemokatu: {text}");
    exit(1);
}
