//! Library, header and crate are of one version, and the toolchain is the one that is named.

use std::process::Command;

#[test]
fn library_header_and_crate_agree() {
    let folder = env!("CARGO_MANIFEST_DIR");
    let header = std::fs::read_to_string(format!("{folder}/../include/hemokatu.h")).unwrap();
    let line = header
        .lines()
        .find_map(|line| line.strip_prefix("#define HEMOKATU_VERSION "))
        .expect("the header has its version");
    let number: u32 = line.split_whitespace().next().unwrap().parse().unwrap();
    assert_eq!(number, hemokatu::VERSION, "header");
    assert_eq!(hemokatu::library_version(), hemokatu::VERSION, "library");

    let parts: Vec<u32> = env!("CARGO_PKG_VERSION")
        .split('.')
        .map(|part| part.parse().unwrap())
        .collect();
    assert_eq!(
        hemokatu::VERSION,
        10_000 * parts[0] + 100 * parts[1] + parts[2]
    );
    let changes = std::fs::read_to_string(format!("{folder}/CHANGELOG.md")).unwrap();
    let newest = changes.lines().find_map(|line| line.strip_prefix("## "));
    assert_eq!(newest, Some(env!("CARGO_PKG_VERSION")), "CHANGELOG.md");
}

/// `TOOLCHAIN` and README name what `rt version` prints. Where `rt` is not on the path, the first two are compared alone.
#[test]
fn the_toolchain_is_the_one_that_is_named() {
    let root = concat!(env!("CARGO_MANIFEST_DIR"), "/..");
    let named = std::fs::read_to_string(format!("{root}/TOOLCHAIN")).unwrap();
    let named = named.trim_end();
    let readme = std::fs::read_to_string(format!("{root}/README.md")).unwrap();
    assert!(
        readme.contains(&format!("`{named}`")),
        "README.md does not name {named}"
    );
    match Command::new("rt").arg("version").output() {
        Ok(said) => assert_eq!(String::from_utf8_lossy(&said.stdout).trim_end(), named),
        Err(e) => println!("rt cannot be asked: {e}"),
    }
}
