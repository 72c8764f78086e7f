//! Links the static library that `tools/build dudowiej` writes.

use std::path::Path;

/// What the archive is called, as `tools/build` is told.
const LIBRARY: &str = "dudowiej";

fn main() {
    let manifest = std::env::var("CARGO_MANIFEST_DIR").expect("cargo names the manifest's folder");
    let folder = Path::new(&manifest).join("../target/staticlib");
    let archive = folder.join(format!("lib{LIBRARY}.a"));
    println!("cargo:rerun-if-changed=build.rs");
    println!("cargo:rerun-if-changed={}", archive.display());
    if !archive.exists() {
        panic!("{} is not there: run `tools/build {LIBRARY}` in the repository's top folder first", archive.display());
    }
    println!("cargo:rustc-link-search=native={}", folder.display());
    println!("cargo:rustc-link-lib=static={LIBRARY}");
}
