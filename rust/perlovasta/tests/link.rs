//! Where the build scripts look for a library, and for which target there is one.

#[path = "../../link.rs"]
#[allow(dead_code)]
mod link;

use std::path::Path;

#[test]
fn one_target() {
    assert_eq!(link::refusal("x86_64", "64", "linux"), None);
    for (arch, width, os) in [
        ("aarch64", "64", "linux"),
        ("x86_64", "64", "macos"),
        ("x86_64", "32", "linux"),
        ("x86_64", "64", "none"),
    ] {
        let refusal = link::refusal(arch, width, os).expect("no library for it");
        assert!(
            refusal.contains("x86_64 linux") && refusal.contains(os),
            "{refusal}"
        );
    }
}

#[test]
fn remedies() {
    let unset = link::remedy("dock", false);
    assert!(unset.contains("sh tests/build library dock") && !unset.contains("unset it"));
    assert!(link::remedy("dock", true).ends_with("PERLOVASTA_LIB_DIR, or unset it"));
}

#[test]
fn folders() {
    let root = Path::new(env!("CARGO_MANIFEST_DIR")).join("../..");
    let root = root.canonicalize().expect("the repository's root");
    let default = root.join("target/staticlib");
    assert_eq!(link::folder(None), default);
    assert_eq!(link::folder(Some(Path::new(""))), default);
    assert_eq!(link::folder(Some(Path::new("lib"))), root.join("lib"));
    let absolute = Path::new("/elsewhere");
    assert_eq!(link::folder(Some(absolute)), absolute);
}
