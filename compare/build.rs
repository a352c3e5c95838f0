//! Links the static library, which `rt lib` leaves in the crate's folder `out`.
use std::path::PathBuf;
use std::{env, fs};

fn main() {
    let archive = archive();
    let folder = archive.parent().expect("an archive lies in a folder");
    println!("cargo:rustc-link-search=native={}", folder.display());
    println!("cargo:rustc-link-lib=static=exported");
    println!("cargo:rerun-if-changed={}", archive.display());
    println!("cargo:rerun-if-env-changed=EXPORTED");
}

// The archive that EXPORTED names, or else the one of this repository.
fn archive() -> PathBuf {
    let here = PathBuf::from(env::var_os("CARGO_MANIFEST_DIR").expect("cargo sets it"));
    let named = env::var_os("EXPORTED").map(PathBuf::from);
    let archive = named.unwrap_or_else(|| here.join("../crates/exported/out/libexported.a"));
    fs::canonicalize(&archive)
        .unwrap_or_else(|e| panic!("{}: {e}; `rt lib` in crates/exported builds it", archive.display()))
}
