//! Links the engine's static library, ../target/staticlib/libspp.a. SPP_LIBRARY_FOLDER names another folder.

use std::path::PathBuf;

fn main() {
    let usual = PathBuf::from(env!("CARGO_MANIFEST_DIR")).join("../target/staticlib");
    let folder = std::env::var_os("SPP_LIBRARY_FOLDER").map_or(usual, PathBuf::from);
    let library = folder.join("libspp.a");
    assert!(library.exists(), "{} is missing: run tests/staticlib first", library.display());
    println!("cargo:rerun-if-env-changed=SPP_LIBRARY_FOLDER");
    println!("cargo:rerun-if-changed={}", library.display());
    println!("cargo:rustc-link-search=native={}", folder.display());
    println!("cargo:rustc-link-lib=static=spp");
}
