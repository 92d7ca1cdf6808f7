//! Links the static library of the proved crates, which `rt lib` builds.

fn main() {
    let folder = concat!(env!("CARGO_MANIFEST_DIR"), "/../target/proved/crates/exports/out");
    println!("cargo:rustc-link-search=native={folder}");
    println!("cargo:rustc-link-lib=static=exports");
    println!("cargo:rerun-if-changed={folder}/libexports.a");
}
