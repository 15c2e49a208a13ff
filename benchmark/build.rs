//! Links the proved code, as static archives, to the measuring program alone: the
//! baseline and its tests build without it.

use std::path::{Path, PathBuf};
use std::process::Command;

fn main() {
    let here = PathBuf::from(std::env::var_os("CARGO_MANIFEST_DIR").expect("cargo sets it"));
    let out = PathBuf::from(std::env::var_os("OUT_DIR").expect("cargo sets it"));
    let directory = match std::env::var_os("CATALOGUE_LIBRARY") {
        Some(directory) => here.join(directory),
        None => here.join("../target/staticlib"),
    };
    println!("cargo::rerun-if-env-changed=CATALOGUE_LIBRARY");
    for name in ["libc_library.a", "libbenchmark_entry.a"] {
        let archive = directory.join(name);
        println!("cargo::rerun-if-changed={}", archive.display());
        let linked = out.join(name);
        if archive.exists() {
            align(&archive, &linked);
        }
        println!("cargo::rustc-link-arg-bin=benchmark={}", linked.display());
    }
}

/// Copies an archive, its functions to begin at multiples of 64, as those of the
/// baseline do (`.cargo/config.toml`).
fn align(archive: &Path, copy: &Path) {
    let mut objcopy = Command::new("objcopy");
    objcopy.args(["--set-section-alignment", ".text*=64"]).arg(archive).arg(copy);
    let status = objcopy.status().expect("objcopy, of binutils, is missing");
    assert!(status.success(), "objcopy failed on {}", archive.display());
}
