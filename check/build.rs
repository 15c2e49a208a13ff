//! Links the proved library, if it is asked for.

use std::path::PathBuf;

fn main() {
    println!("cargo:rerun-if-env-changed=CATALOGUE_LIBRARY");
    if std::env::var_os("CARGO_FEATURE_LIBRARY").is_some() {
        link();
    }
}

fn link() {
    let directory = std::env::var_os("CATALOGUE_LIBRARY").unwrap_or("../target/staticlib".into());
    let archive = PathBuf::from(directory).join("libc_library.a");
    // The compiler may be started in another directory than this script.
    let archive = archive.canonicalize().unwrap_or_else(|error| {
        eprintln!("{}: {error}; `.ci/archive c_library_c` makes it", archive.display());
        std::process::exit(1)
    });
    let directory = archive.parent().expect("a file is in a directory");
    println!("cargo:rerun-if-changed={}", archive.display());
    println!("cargo:rustc-link-search=native={}", directory.display());
    println!("cargo:rustc-link-lib=static=c_library");
}
