//! Links libb2, libsodium and OpenSSL, and tells the benchmark where the archive of our static library stands.

use std::env;

fn main() {
    println!("cargo:rerun-if-changed=build.rs");
    for library in ["b2", "sodium", "crypto"] {
        println!("cargo:rustc-link-lib={library}");
    }
    println!("cargo:rustc-env=HASPELJO_ARCHIVE={}", env::var("DEP_HASPELJO_ARCHIVE").unwrap());
}
