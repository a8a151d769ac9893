//! Says where the original's files are: the folder in ORIGINAL, or ../../shared/docs/src seen from this one. They are
//! compiled from there, unchanged, and no text of theirs is here.
use std::env;
use std::fmt::Write;
use std::fs;
use std::path::{Path, PathBuf};
use std::process::exit;

const FILES: [&str; 7] = ["access", "descriptor", "error", "finder", "graph", "reference", "resolution"];

fn main() {
    println!("cargo:rerun-if-env-changed=ORIGINAL");
    let folder = match env::var_os("ORIGINAL") {
        Some(folder) => PathBuf::from(folder),
        None => Path::new(&env::var_os("CARGO_MANIFEST_DIR").unwrap()).join("../../shared/docs/src"),
    };
    let folder = folder.join("ristretto_classloader/src/module");
    let mut modules = String::new();
    for file in FILES {
        let path = folder.join(file).with_extension("rs");
        let Ok(path) = path.canonicalize() else {
            eprintln!("the original's files are not at hand: {} is missing (set ORIGINAL)", path.display());
            exit(1);
        };
        println!("cargo:rerun-if-changed={}", path.display());
        writeln!(modules, "#[path = {path:?}]\npub mod {file};").unwrap();
    }
    let out = Path::new(&env::var_os("OUT_DIR").unwrap()).join("original.rs");
    fs::write(out, modules).expect("OUT_DIR is written");
}
