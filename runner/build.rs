//! Links the engine's static library, which `./build` writes.

use std::path::Path;

fn main() {
    let folder = Path::new(env!("CARGO_MANIFEST_DIR")).join("../target/staticlib");
    let library = folder.join("libvcs.a");
    assert!(library.exists(), "target/staticlib/libvcs.a is missing: run `./build` first");
    println!("cargo:rerun-if-changed={}", library.display());
    println!("cargo:rustc-link-search=native={}", folder.display());
    println!("cargo:rustc-link-lib=static=vcs");
}
