//! Links the static library that `tools/static-library` writes.

use std::path::Path;

fn main() {
    let folder = Path::new(env!("CARGO_MANIFEST_DIR")).join("../../target/staticlib");
    let library = folder.join("libdomvurtesz.a");
    println!("cargo:rustc-link-search=native={}", folder.display());
    println!("cargo:rustc-link-lib=static=domvurtesz");
    println!("cargo:rerun-if-changed={}", library.display());
    if !library.exists() {
        println!("cargo:warning=there is no {}; `tools/static-library` writes it", library.display());
    }
}
