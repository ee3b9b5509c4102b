//! Finds the static library, and copies two files of release 0.3.0 that its crate keeps private.

use std::env;
use std::path::{Path, PathBuf};

fn main() {
    link_library(&folder("BRASSPURSE_LIB_DIR"));
    let sources = folder("BRASSPURSE_REGISTRY").join("macho-unwind-info-0.3.0/src");
    for file in ["opcodes/permutation.rs", "reader.rs"] {
        copy(&sources.join(file));
    }
}

/// The folder that `compare/run` names in a variable.
fn folder(variable: &str) -> PathBuf {
    println!("cargo:rerun-if-env-changed={variable}");
    env::var_os(variable)
        .unwrap_or_else(|| panic!("{variable} is not set"))
        .into()
}

fn link_library(folder: &Path) {
    let folder = folder.display();
    println!("cargo:rerun-if-changed={folder}/libbrasspurse.a");
    println!("cargo:rustc-link-search=native={folder}");
    println!("cargo:rustc-link-lib=static=brasspurse");
}

fn copy(from: &Path) {
    println!("cargo:rerun-if-changed={}", from.display());
    let to = PathBuf::from(env::var_os("OUT_DIR").unwrap()).join(from.file_name().unwrap());
    std::fs::copy(from, to).unwrap_or_else(|e| panic!("{}: {e}", from.display()));
}
