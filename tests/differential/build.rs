//! Links crates/figdawesa/out/libfigdawesa.a of the repository, or the archive that FIGDAWESA_LIB names.

use std::path::PathBuf;

fn main() {
    println!("cargo:rerun-if-env-changed=FIGDAWESA_LIB");
    let root = PathBuf::from(std::env::var("CARGO_MANIFEST_DIR").unwrap()).join("../..");
    let archive = std::env::var("FIGDAWESA_LIB").map_or(root.join("crates/figdawesa/out/libfigdawesa.a"), PathBuf::from);
    println!("cargo:rerun-if-changed={}", archive.display());
    assert!(archive.exists(), "{} is not there: run rt lib in crates/figdawesa", archive.display());
    let name = archive.file_stem().unwrap().to_str().unwrap().trim_start_matches("lib").to_string();
    println!("cargo:rustc-link-search=native={}", archive.parent().unwrap().display());
    println!("cargo:rustc-link-lib=static={name}");
}
