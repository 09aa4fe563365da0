//! Links the library's archive where it is there: crates/figdawesa/out/libfigdawesa.a of the repository, or what FIGDAWESA_LIB names.
//! What it has decides what is measured: `judges` with figdawesa_judge, `sets` with figdawesa_judge_set, `reads` with figdawesa_read and
//! figdawesa_write, `evaluates` with figdawesa_evaluate.
//!
//! SQLite's library is linked to the program `evaluate`, as `sqlite`, where the system has it: where a small program links against it.

use std::path::PathBuf;
use std::process::{Command, Stdio};

fn main() {
    println!("cargo:rustc-check-cfg=cfg(judges, sets, reads, evaluates, sqlite)");
    if links("sqlite3") {
        println!("cargo:rustc-cfg=sqlite");
        println!("cargo:rustc-link-arg-bin=evaluate=-lsqlite3");
    }
    println!("cargo:rerun-if-env-changed=FIGDAWESA_LIB");
    let root = PathBuf::from(std::env::var("CARGO_MANIFEST_DIR").unwrap()).join("..");
    let archive = std::env::var("FIGDAWESA_LIB").map_or(root.join("crates/figdawesa/out/libfigdawesa.a"), PathBuf::from);
    println!("cargo:rerun-if-changed={}", archive.display());
    let Ok(bytes) = std::fs::read(&archive) else { return };
    let has = |name: &str| bytes.windows(name.len()).any(|part| part == name.as_bytes());
    let name = archive.file_stem().unwrap().to_str().unwrap().trim_start_matches("lib").to_string();
    println!("cargo:rustc-link-search=native={}", archive.parent().unwrap().display());
    println!("cargo:rustc-link-lib=static={name}");
    if has("figdawesa_judge") {
        println!("cargo:rustc-cfg=judges");
    }
    if has("figdawesa_judge_set") {
        println!("cargo:rustc-cfg=sets");
    }
    if has("figdawesa_read") && has("figdawesa_write") {
        println!("cargo:rustc-cfg=reads");
    }
    if has("figdawesa_evaluate") {
        println!("cargo:rustc-cfg=evaluates");
    }
}

/// Whether a program links against a library of the system.
fn links(library: &str) -> bool {
    let folder = PathBuf::from(std::env::var("OUT_DIR").unwrap());
    let source = folder.join("links.c");
    let text = "int main(void) { return 0; }\n";
    std::fs::write(&source, text).is_ok()
        && Command::new("cc")
            .arg(&source)
            .arg("-Wl,--no-as-needed")
            .arg(format!("-l{library}"))
            .arg("-o")
            .arg(folder.join("links"))
            .stdout(Stdio::null())
            .stderr(Stdio::null())
            .status()
            .is_ok_and(|s| s.success())
}
