//! Links target/staticlib/libtowungbe.a of the repository, or says how to make it.

use std::path::PathBuf;
use std::process::exit;

const ARCHIVE: &str = "libtowungbe.a";

fn main() {
    let top = std::env::var_os("CARGO_MANIFEST_DIR").unwrap_or_default();
    let directory = PathBuf::from(top).join("../../target/staticlib");
    let archive = directory.join(ARCHIVE);
    println!("cargo::rerun-if-changed={}", archive.display());
    if !archive.is_file() {
        println!(
            "cargo::error=target/staticlib/{ARCHIVE} is missing: run `tools/staticlib` at the top of the repository"
        );
        exit(1);
    }
    println!("cargo::rustc-link-search=native={}", directory.display());
    println!("cargo::rustc-link-lib=static=towungbe");
}
