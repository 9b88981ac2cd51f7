//! Links the static library of the Rattle crate `haspeljo_c`, and names its archive to the build scripts of
//! crates that depend on this one.

use std::env;
use std::path::PathBuf;

/// Where `make library` puts the archive unless `HASPELJO_LIB_DIR` says otherwise, seen from the folder
/// `rust`.
const DEFAULT: &str = "../target/staticlib";

fn main() {
    println!("cargo:rerun-if-env-changed=HASPELJO_LIB_DIR");
    let folder = env::var("HASPELJO_LIB_DIR").unwrap_or(DEFAULT.into());
    let here = PathBuf::from(env::var("CARGO_MANIFEST_DIR").unwrap());
    let folder = here.parent().unwrap().join(folder);
    let archive = folder.join("libhaspeljo.a");
    let shown = archive.display();
    assert!(archive.is_file(), "{shown} is missing: run `make library` in the repository");
    println!("cargo:rerun-if-changed={shown}");
    println!("cargo:archive={shown}");
    println!("cargo:rustc-link-search=native={}", folder.display());
    println!("cargo:rustc-link-lib=static=haspeljo");
}
