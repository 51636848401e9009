//! Finds a proved library for the build scripts of the crates that link one.

use std::env;
use std::path::{Path, PathBuf};

const VARIABLE: &str = "PERLOVASTA_LIB_DIR";
/// Where `tests/build library` puts libraries, from the repository's root.
const DEFAULT: &str = "target/staticlib";

/// Has cargo link this library: from the folder that the variable names, or where `tests/build
/// library` puts it. What stands in the way is said as an error of the build.
pub fn link(library: &str) {
    println!("cargo::rerun-if-env-changed={VARIABLE}");
    if let Some(refusal) = refusal(&cfg("ARCH"), &cfg("POINTER_WIDTH"), &cfg("OS")) {
        println!("cargo::error={refusal}");
        return;
    }
    let named = env::var_os(VARIABLE);
    let folder = folder(named.as_deref().map(Path::new));
    let archive = folder.join(format!("lib{library}.a"));
    println!("cargo::rerun-if-changed={}", archive.display());
    if !archive.is_file() {
        let remedy = remedy(library, named.is_some_and(|name| !name.is_empty()));
        println!("cargo::error={} is not there: {remedy}", archive.display());
        return;
    }
    println!("cargo::rustc-link-search=native={}", folder.display());
    println!("cargo::rustc-link-lib=static={library}");
}

fn cfg(name: &str) -> String {
    env::var(format!("CARGO_CFG_TARGET_{name}")).unwrap_or_default()
}

/// Why there is no library for this target, if there is none.
pub fn refusal(arch: &str, width: &str, os: &str) -> Option<String> {
    if (arch, width, os) == ("x86_64", "64", "linux") {
        return None;
    }
    Some(format!(
        "the proved libraries are built for 64-bit x86_64 linux, not for {width}-bit {arch} {os}"
    ))
}

/// What to do where the library is not there; `named` says whether the variable names a folder.
pub fn remedy(library: &str, named: bool) -> String {
    if named {
        return format!("name the folder of lib{library}.a in {VARIABLE}, or unset it");
    }
    format!("run `sh tests/build library {library}`, or name its folder in {VARIABLE}")
}

/// The library's folder. A relative one is taken from the repository's root, and an empty name
/// counts for none.
pub fn folder(named: Option<&Path>) -> PathBuf {
    let root = Path::new(env!("CARGO_MANIFEST_DIR")).join("../..");
    // A path without `..` is easier to read; where it can't be had, the other is right too.
    let root = root.canonicalize().unwrap_or(root);
    let named = named.filter(|folder| !folder.as_os_str().is_empty());
    root.join(named.unwrap_or(Path::new(DEFAULT)))
}
