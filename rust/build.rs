//! Links libhost.a from ../crates/host/out, where `rt lib` in ../crates/host writes it, or from SAQHOVUNE_LIB_DIR.
use std::env;
use std::path::{Path, PathBuf};
use std::process::exit;

fn main() {
    println!("cargo:rerun-if-env-changed=SAQHOVUNE_LIB_DIR");
    let folder = match env::var_os("SAQHOVUNE_LIB_DIR") {
        Some(folder) => PathBuf::from(folder),
        None => Path::new(&env::var_os("CARGO_MANIFEST_DIR").unwrap()).join("../crates/host/out"),
    };
    let archive = folder.join("libhost.a");
    println!("cargo:rerun-if-changed={}", archive.display());
    if !archive.is_file() {
        eprintln!("{} is missing: run `rt lib` in crates/host, or set SAQHOVUNE_LIB_DIR to its folder", archive.display());
        exit(1);
    }
    println!("cargo:rustc-link-search=native={}", folder.display());
    println!("cargo:rustc-link-lib=static=host");
}
