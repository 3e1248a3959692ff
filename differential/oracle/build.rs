//! Writes a copy of each source file to OUT_DIR, with our accessors to its private items after the
//! source's own text, of which not a byte is changed.

use std::path::{Path, PathBuf};
use std::{env, fs};

/// The source files, each a module of the crate under its own name.
const MODULES: [&str; 3] = ["base_builder", "phred", "simple_umi"];

fn main() {
    let source = source_folder().join("crates/fgumi-consensus/src");
    let accessors = Path::new("accessors");
    let out = PathBuf::from(env::var_os("OUT_DIR").expect("cargo sets OUT_DIR"));
    for module in MODULES {
        let file = format!("{module}.rs");
        let text = read(&source.join(&file)) + &accessors_of(&accessors.join(&file));
        write(&out.join(&file), &text);
    }
    let declarations: String =
        MODULES.iter().map(|module| format!("pub mod {module};\n")).collect();
    write(&out.join("modules.rs"), &declarations);
    println!("cargo::rerun-if-changed=accessors");
}

/// Where the Rust source lies: beside the repository, unless CONSENSUS_SOURCE says otherwise.
fn source_folder() -> PathBuf {
    println!("cargo::rerun-if-env-changed=CONSENSUS_SOURCE");
    env::var_os("CONSENSUS_SOURCE").map_or("../../../shared/docs/src".into(), PathBuf::from)
}

/// The accessors of a source file, which has none where there is no such file.
fn accessors_of(path: &Path) -> String {
    if path.exists() { format!("\n{}", read(path)) } else { String::new() }
}

fn read(path: &Path) -> String {
    println!("cargo::rerun-if-changed={}", path.display());
    fs::read_to_string(path).unwrap_or_else(|error| panic!("{}: {error}", path.display()))
}

fn write(path: &Path, text: &str) {
    fs::write(path, text).unwrap_or_else(|error| panic!("{}: {error}", path.display()));
}
