//! Links libfigdawesa.a, from crates/figdawesa/out of the repository or from the folder that FIGDAWESA_LIB names.
use std::env;
use std::path::{Path, PathBuf};

fn main() {
    println!("cargo:rerun-if-env-changed=FIGDAWESA_LIB");
    let folder = match env::var_os("FIGDAWESA_LIB") {
        Some(folder) => PathBuf::from(folder),
        None => Path::new(env!("CARGO_MANIFEST_DIR")).join("../crates/figdawesa/out"),
    };
    let archive = folder.join("libfigdawesa.a");
    println!("cargo:rerun-if-changed={}", archive.display());
    if !archive.exists() {
        panic!("{} is missing: `rt lib` in crates/figdawesa writes it", archive.display());
    }
    println!("cargo:rustc-link-search=native={}", folder.display());
    println!("cargo:rustc-link-lib=static=figdawesa");
}
