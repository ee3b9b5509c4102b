//! Links `libbrasspurse.a`, made by `scripts/archive`, which calls `rt lib` in `crates/brasspurse_c`.
//!
//! `BRASSPURSE_LIB_DIR` names its folder, if it isn't `../target/staticlib` beside the manifest's.
//! The path has to be absolute: cargo runs this in the manifest's folder, so that a relative one
//! would not count from where its writer stands.

#![forbid(unsafe_code)]

use std::env;
use std::ffi::OsString;
use std::path::{Path, PathBuf};
use std::process::exit;

const VARIABLE: &str = "BRASSPURSE_LIB_DIR";
const DEFAULT: &str = "../target/staticlib";

const SUPPORTED: &str = "libbrasspurse.a is x86-64 code for Linux, with pointers of 64 bits. \
    On another machine build with `--target x86_64-unknown-linux-gnu`, \
    name a linker for it, as in CARGO_TARGET_X86_64_UNKNOWN_LINUX_GNU_LINKER=x86_64-linux-gnu-gcc, \
    and run what is built under an emulator, such as qemu-x86_64.";

fn main() {
    println!("cargo:rerun-if-env-changed={VARIABLE}");
    if let Err(why) = link() {
        eprintln!("brasspurse: {why}");
        exit(1);
    }
}

fn link() -> Result<(), String> {
    let [target, host] = ["TARGET", "HOST"].map(|name| env::var(name).unwrap());
    let built_for = ["ARCH", "OS", "POINTER_WIDTH"]
        .map(|part| env::var(format!("CARGO_CFG_TARGET_{part}")).unwrap());
    is_supported(&target, &built_for)?;
    let flags = env::var("CARGO_ENCODED_RUSTFLAGS").unwrap_or_default();
    let is_named = env::var_os("RUSTC_LINKER").is_some() || flags.contains("linker=");
    has_linker(&host, is_named)?;

    let manifest = PathBuf::from(env::var_os("CARGO_MANIFEST_DIR").unwrap());
    let folder = folder(&manifest, env::var_os(VARIABLE))?;
    let archive = folder.join("libbrasspurse.a");
    println!("cargo:rerun-if-changed={}", archive.display());
    if !archive.is_file() {
        return Err(format!(
            "there is no {}\nMake it by `scripts/archive`, or name its folder in {VARIABLE}.",
            archive.display()
        ));
    }
    println!("cargo:rustc-link-search=native={}", folder.display());
    println!("cargo:rustc-link-lib=static=brasspurse");
    Ok(())
}

/// Whether the archive is code for a target: its processor, system and width of pointers.
pub fn is_supported(target: &str, built_for: &[String; 3]) -> Result<(), String> {
    if built_for == &["x86_64", "linux", "64"] {
        return Ok(());
    }
    Err(format!("{target} is not supported. {SUPPORTED}"))
}

/// Without a linker for x86-64 the build would end in what the host's own says.
pub fn has_linker(host: &str, is_named: bool) -> Result<(), String> {
    if is_named || host.starts_with("x86_64") && host.contains("linux") {
        return Ok(());
    }
    Err(format!("on {host} no linker is named. {SUPPORTED}"))
}

pub fn folder(manifest: &Path, named: Option<OsString>) -> Result<PathBuf, String> {
    match named.filter(|named| !named.is_empty()).map(PathBuf::from) {
        None => Ok(manifest.join(DEFAULT)),
        Some(named) if named.is_absolute() => Ok(named),
        Some(named) => Err(format!(
            "{VARIABLE} has to be an absolute path, and is {}",
            named.display()
        )),
    }
}
