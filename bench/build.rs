//! Links the proved library.
use std::path::Path;

fn main() {
    let root = std::env::var("CARGO_MANIFEST_DIR").expect("set by cargo");
    let archive = match std::env::var("BAY_ARCHIVE") {
        Ok(path) => Path::new(&path).to_path_buf(),
        Err(_) => Path::new(&root).join("../target/staticlib/libbay.a"),
    };
    println!("cargo:rerun-if-env-changed=BAY_ARCHIVE");
    println!("cargo:rerun-if-changed={}", archive.display());
    println!("cargo:rustc-link-arg-bins={}", archive.display());
}
