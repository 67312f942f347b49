//! With the feature `staticlib` or `bench`: links every archive found in the directory that LYKOPHENE_STATICLIB
//! names, by default ../crates/exports/out, where `rt lib` leaves the library.

use std::path::PathBuf;
use std::{env, fs};

fn main() {
    println!("cargo:rerun-if-changed=build.rs");
    println!("cargo:rerun-if-env-changed=LYKOPHENE_STATICLIB");
    if ["CARGO_FEATURE_STATICLIB", "CARGO_FEATURE_BENCH"].iter().all(|name| env::var_os(name).is_none()) {
        return;
    }
    let package = PathBuf::from(env::var_os("CARGO_MANIFEST_DIR").expect("cargo names the package"));
    let directory = match env::var_os("LYKOPHENE_STATICLIB") {
        Some(named) => PathBuf::from(named),
        None => package.join("../crates/exports/out"),
    };
    println!("cargo:rerun-if-changed={}", directory.display());
    println!("cargo:rustc-link-search=native={}", directory.display());
    let mut found = false;
    for entry in fs::read_dir(&directory).into_iter().flatten().flatten() {
        let file = entry.file_name().to_string_lossy().into_owned();
        if let Some(name) = file.strip_prefix("lib").and_then(|rest| rest.strip_suffix(".a")) {
            println!("cargo:rerun-if-changed={}", entry.path().display());
            println!("cargo:rustc-link-lib=static={name}");
            found = true;
        }
    }
    assert!(found, "no lib*.a in {}", directory.display());
}
