//! Links the port: `rt lib` in crates/hemokatu writes libhemokatu.a to out/ there, or HEMOKATU_LIB says where it is.

fn main() {
    let root = concat!(env!("CARGO_MANIFEST_DIR"), "/../../crates/hemokatu/out");
    let folder = std::env::var("HEMOKATU_LIB").unwrap_or(root.to_string());
    println!("cargo:rerun-if-env-changed=HEMOKATU_LIB");
    println!("cargo:rerun-if-changed={folder}/libhemokatu.a");
    println!("cargo:rustc-link-search=native={folder}");
    println!("cargo:rustc-link-lib=static=hemokatu");
}
