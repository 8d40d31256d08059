//! Links libwilfnusk.a, which `tools/library` puts into build/lib of the repository.
//! WILFNUSK_LIB_DIR names another folder.
use std::{env, path::PathBuf, process::exit};

fn main() {
    println!("cargo:rerun-if-env-changed=WILFNUSK_LIB_DIR");
    let dir = env::var("WILFNUSK_LIB_DIR")
        .map(PathBuf::from)
        .unwrap_or_else(|_| PathBuf::from(env::var("CARGO_MANIFEST_DIR").unwrap()).join("../../build/lib"));
    let archive = dir.join("libwilfnusk.a");
    if !archive.exists() {
        eprintln!(
            "{} is not there: run `tools/library` in the repository, or set WILFNUSK_LIB_DIR to the archive's folder",
            archive.display()
        );
        exit(1);
    }
    println!("cargo:rerun-if-changed={}", archive.display());
    println!("cargo:rustc-link-search=native={}", dir.display());
    println!("cargo:rustc-link-lib=static=wilfnusk");
}
