//! Tells cargo where the router's static library is: in the folder that
//! GAXWETHI_LIB names, or in crates/export/out of this repository, where
//! `rt lib`, run in crates/export, puts it.

use std::path::PathBuf;

fn main() {
    println!("cargo:rerun-if-env-changed=GAXWETHI_LIB");
    let here = PathBuf::from(std::env::var_os("CARGO_MANIFEST_DIR").unwrap());
    let folder = match std::env::var_os("GAXWETHI_LIB") {
        Some(folder) => std::env::current_dir().unwrap().join(folder),
        None => here.join("../../crates/export/out"),
    };
    let archive = folder.join("libexport.a");
    println!("cargo:rerun-if-changed={}", archive.display());
    if !archive.exists() {
        println!("cargo:warning={} is missing: run `rt lib` in crates/export", archive.display());
    }
    println!("cargo:rustc-link-search=native={}", folder.display());
    println!("cargo:rustc-link-lib=static=export");
}
