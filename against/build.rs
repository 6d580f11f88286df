//! Links `libparlaqen.a` from PARLAQEN_LIB_DIR, or else from `../target/lib`, where `tools/archive` puts it.

use std::{env, path::PathBuf, process};

fn main() {
    println!("cargo:rerun-if-env-changed=PARLAQEN_LIB_DIR");
    println!("cargo:rerun-if-changed=build.rs");
    let directory = match env::var_os("PARLAQEN_LIB_DIR") {
        Some(chosen) => PathBuf::from(chosen),
        None => PathBuf::from(env!("CARGO_MANIFEST_DIR")).join("../target/lib"),
    };
    let archive = directory.join("libparlaqen.a");
    println!("cargo:rerun-if-changed={}", archive.display());
    if !archive.is_file() {
        eprintln!("{} is missing: tools/archive makes it", archive.display());
        process::exit(1);
    }
    println!("cargo:rustc-link-search=native={}", directory.display());
    println!("cargo:rustc-link-lib=static=parlaqen");
}
