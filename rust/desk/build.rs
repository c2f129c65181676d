//! Links the proved static library, which `./build-library` writes to target/staticlib of the project.
use std::path::PathBuf;

fn main() {
    let root = PathBuf::from(std::env::var("CARGO_MANIFEST_DIR").unwrap());
    let built = root.join("../../target/staticlib");
    let archive = built.join("libdesk.a");
    println!("cargo:rerun-if-changed={}", archive.display());
    assert!(archive.exists(), "target/staticlib/libdesk.a is missing: run ./build-library first");
    println!("cargo:rustc-link-search=native={}", built.canonicalize().unwrap().display());
    println!("cargo:rustc-link-lib=static=desk");
}
