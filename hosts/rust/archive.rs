//! Links an archive of proved calls, `libNAME.a`. Build scripts share it.

#[path = "made.rs"]
mod made;

use made::{made, root, sources};
use std::env;

/// Links `libNAME.a`; the package's own code gets its path as `ARCHIVE`.
pub fn link(name: &str) {
    let package = env::var("CARGO_MANIFEST_DIR").expect("cargo names the package");
    let root = root(package);
    let archive = made(&root, name, "lib", &format!("staticlib/lib{name}.a"));
    for path in sources(&root).iter().chain([&archive]) {
        println!("cargo:rerun-if-changed={}", path.display());
    }
    println!("cargo:rustc-link-search=native={}", root.join("target/staticlib").display());
    println!("cargo:rustc-link-lib=static={name}");
    println!("cargo:rustc-env=ARCHIVE={}", archive.display());
}
