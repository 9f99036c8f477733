//! Links the static library from where `rt lib` in the folder crates/tob writes it, which is not in cargo's own target folder.

use std::env::var;

fn main() {
    let folder = format!("{}/../../crates/tob/out", env!("CARGO_MANIFEST_DIR"));
    let archive = format!("{folder}/libtob.a");
    println!("cargo::rerun-if-changed={archive}");

    let target = var("TARGET").unwrap_or_default();
    if !(target.starts_with("x86_64-") && target.contains("-linux-")) {
        println!("cargo::error=the static library is for x86-64 Linux, and cannot be linked for {target}");
    } else if !std::fs::exists(&archive).unwrap_or(false) {
        println!("cargo::error=the static library is missing: run `rt lib` in the folder crates/tob");
    }
    println!("cargo::rustc-link-search=native={folder}");
    println!("cargo::rustc-link-lib=static=tob");
}
