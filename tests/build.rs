//! Links the C library that `tools/prove staticlib rbatl` writes, or the one in
//! `RBATL_FOLDER`.

use std::{env, path::PathBuf};

fn main() {
    let manifest = env::var("CARGO_MANIFEST_DIR").expect("cargo sets CARGO_MANIFEST_DIR");
    let written = PathBuf::from(manifest).join("../target/staticlib");
    let folder = env::var_os("RBATL_FOLDER").map_or(written, PathBuf::from);
    let archive = folder.join("librbatl.a");
    // A changed archive must be linked anew.
    println!("cargo:rerun-if-changed=build.rs");
    println!("cargo:rerun-if-env-changed=RBATL_FOLDER");
    println!("cargo:rerun-if-changed={}", archive.display());
    assert!(
        archive.is_file(),
        "{} is missing: run `tools/prove staticlib rbatl` first",
        archive.display()
    );
    println!("cargo:rustc-link-search=native={}", folder.display());
    println!("cargo:rustc-link-lib=static=rbatl");
}
