//! Links the proved library to the programs here that call it.
use std::path::Path;

fn main() {
    let root = std::env::var("CARGO_MANIFEST_DIR").expect("set by cargo");
    // BAY_ARCHIVE names another archive, to see that a wrong library is found out.
    let archive = match std::env::var("BAY_ARCHIVE") {
        Ok(path) => Path::new(&path).to_path_buf(),
        Err(_) => Path::new(&root).join("../target/staticlib/libbay.a"),
    };
    println!("cargo:rerun-if-env-changed=BAY_ARCHIVE");
    println!("cargo:rerun-if-changed={}", archive.display());
    for program in ["compare", "digests"] {
        println!("cargo:rustc-link-arg-bin={program}={}", archive.display());
    }
}
