//! Finds the static library: in the folder that CURIUMTOAD_LIB names, or where `rt lib` in crates/curiumtoad_c writes it.

use std::env;
use std::path::PathBuf;

const ARCHIVE: &str = "libcuriumtoad_c.a";

fn main() {
    println!("cargo::rerun-if-env-changed=CURIUMTOAD_LIB");
    let folder = match env::var_os("CURIUMTOAD_LIB") {
        Some(folder) => PathBuf::from(folder),
        None => PathBuf::from(env::var_os("CARGO_MANIFEST_DIR").expect("cargo sets it")).join("../../crates/curiumtoad_c/out"),
    };
    let archive = folder.join(ARCHIVE);
    println!("cargo::rerun-if-changed={}", archive.display());
    if !archive.is_file() {
        println!(
            "cargo::error={} is missing: make it with `rt lib` in crates/curiumtoad_c, or set CURIUMTOAD_LIB to its folder",
            archive.display()
        );
        return;
    }
    println!("cargo::rustc-link-search=native={}", folder.display());
    println!("cargo::rustc-link-lib=static=curiumtoad_c");
}
