//! Links the proved static library, which `python3 -m command.build` at the repository's root writes to target/staticlib.

use std::path::Path;

fn main() {
    let root = Path::new(env!("CARGO_MANIFEST_DIR")).join("../..");
    let folder = root.join("target/staticlib");
    let archive = folder.join("librack.a");
    println!("cargo:rerun-if-changed={}", archive.display());
    if !archive.exists() {
        panic!("target/staticlib/librack.a is missing: run `python3 -m command.build` at the repository's root first");
    }
    println!("cargo:rustc-link-search=native={}", folder.display());
    println!("cargo:rustc-link-lib=static=rack");
}
