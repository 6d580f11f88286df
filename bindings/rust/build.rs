//! Links `libparlaqen.a` from the directory that `PARLAQEN_LIB_DIR_<target>` or `PARLAQEN_LIB_DIR` names, or else from
//! where `tools/archive` puts it.

use std::env;
use std::path::PathBuf;

fn main() {
    let [target, host] = ["TARGET", "HOST"].map(|name| env::var(name).unwrap());
    let [of_crate, out] = ["CARGO_MANIFEST_DIR", "OUT_DIR"].map(|name| PathBuf::from(env::var_os(name).unwrap()));
    let of_target = format!("PARLAQEN_LIB_DIR_{}", target.replace('-', "_"));
    let names = [format!("PARLAQEN_LIB_DIR_{target}"), of_target.clone(), "PARLAQEN_LIB_DIR".to_string()];
    for name in &names {
        println!("cargo:rerun-if-env-changed={name}");
    }
    // The first name that is set is the most specific one; an empty variable is as good as none.
    let set = |name| Some((name, PathBuf::from(env::var_os(name).filter(|dir| !dir.is_empty())?)));
    let named = names.iter().find_map(set);
    let dir = of_crate.join(named.as_ref().map_or("../../target/lib".into(), |(_, dir)| dir.clone()));
    let archive = dir.join("libparlaqen.a");

    // The directory too, since an archive that is put in the place of another may be older than that.
    println!("cargo:rerun-if-changed={}", dir.display());
    println!("cargo:rerun-if-changed={}", archive.display());
    if target != host && named.is_none() {
        println!(
            "cargo:warning=the archive in {} is that of the host, {host}: name the directory of the one for {target} \
             in {of_target}",
            dir.display(),
        );
    }
    if !archive.exists() {
        // An archive that is put there may be older than this run, and then only a file that is never there makes cargo
        // run the script again.
        println!("cargo:rerun-if-changed={}", out.join("never-there").display());
        let from_where = match named {
            Some((name, dir)) if dir.is_relative() => {
                format!(" (the directory in {name} is relative and counts from {})", of_crate.display())
            }
            _ => String::new(),
        };
        // no failure: checking and documenting need no archive, and a program without it is refused when it is linked
        println!(
            "cargo:warning={} is not there, and no program can be linked without it: run tools/archive, or name its \
             directory in PARLAQEN_LIB_DIR or {of_target}{from_where}",
            archive.display(),
        );
    }
    println!("cargo:rustc-link-search=native={}", dir.display());
    println!("cargo:rustc-link-lib=static=parlaqen");
}
