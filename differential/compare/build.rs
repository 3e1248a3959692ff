//! Links the static library of the proved crate `exports`, which `rt lib` writes in its folder.

use std::env;
use std::path::{Path, PathBuf};

fn main() {
    let folder = library_folder();
    println!("cargo::rustc-link-search=native={}", folder.display());
    println!("cargo::rustc-link-lib=static=exports");
    println!("cargo::rerun-if-changed={}", folder.join("libexports.a").display());
    println!("cargo::rerun-if-changed=build.rs");
}

/// Where the library lies: where `rt` writes it, unless EXPORTS_FOLDER says otherwise.
fn library_folder() -> PathBuf {
    println!("cargo::rerun-if-env-changed=EXPORTS_FOLDER");
    let manifest = env::var_os("CARGO_MANIFEST_DIR").expect("cargo sets CARGO_MANIFEST_DIR");
    let folder = env::var_os("EXPORTS_FOLDER").unwrap_or("../../crates/exports/out".into());
    Path::new(&manifest).join(folder)
}
