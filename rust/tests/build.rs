//! What the build script refuses, and the sentence that it says.

#![forbid(unsafe_code)]

#[allow(dead_code)]
#[path = "../build.rs"]
mod script;

use script::{folder, has_linker, is_supported};
use std::path::{Path, PathBuf};

fn built_for(arch: &str, os: &str, width: &str) -> [String; 3] {
    [arch, os, width].map(str::to_owned)
}

#[test]
fn x86_64_linux_alone_is_supported() {
    let here = built_for("x86_64", "linux", "64");
    assert_eq!(is_supported("x86_64-unknown-linux-gnu", &here), Ok(()));
    for (target, arch, os, width) in [
        ("aarch64-unknown-linux-gnu", "aarch64", "linux", "64"),
        ("aarch64-apple-darwin", "aarch64", "macos", "64"),
        ("x86_64-apple-darwin", "x86_64", "macos", "64"),
        ("x86_64-pc-windows-msvc", "x86_64", "windows", "64"),
        ("x86_64-unknown-linux-gnux32", "x86_64", "linux", "32"),
        ("i686-unknown-linux-gnu", "x86", "linux", "32"),
    ] {
        let why = is_supported(target, &built_for(arch, os, width)).unwrap_err();
        assert!(why.starts_with(&format!("{target} is not supported. ")));
        assert!(why.contains("x86-64 code for Linux"));
        assert!(why.contains("--target x86_64-unknown-linux-gnu"));
    }
}

#[test]
fn another_host_needs_a_linker() {
    assert_eq!(has_linker("x86_64-unknown-linux-gnu", false), Ok(()));
    for host in ["aarch64-unknown-linux-gnu", "x86_64-apple-darwin"] {
        let why = has_linker(host, false).unwrap_err();
        assert!(why.starts_with(&format!("on {host} no linker is named. ")));
        assert_eq!(has_linker(host, true), Ok(()));
    }
}

#[test]
fn a_folder_is_named_by_an_absolute_path() {
    let manifest = Path::new("/crate/rust");
    let default = Ok(PathBuf::from("/crate/rust/../target/staticlib"));
    assert_eq!(folder(manifest, None), default);
    assert_eq!(folder(manifest, Some("".into())), default);
    assert_eq!(folder(manifest, Some("/lib".into())), Ok("/lib".into()));
    let why = folder(manifest, Some("target/staticlib".into())).unwrap_err();
    let said = "BRASSPURSE_LIB_DIR has to be an absolute path, and is target/staticlib";
    assert_eq!(why, said);
}
