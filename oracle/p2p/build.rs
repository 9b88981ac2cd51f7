//! Writes the module tree of the six Rust files, each with the place where its file stands.

use std::path::{Path, PathBuf};
use std::{env, fs};

/// Where the sources stand unless `ERGO_SRC` says otherwise, seen from the oracle folder.
const DEFAULT: &str = "../../shared/docs/src";

/// The six files in p2p/src: a folder, or none, and the names in it.
const FILES: [(&str, &[&str]); 3] = [
    ("", &["types"]),
    ("transport", &["vlq", "handshake", "frame"]),
    ("protocol", &["address_sanity", "messages"]),
];

fn main() {
    println!("cargo::rerun-if-env-changed=ERGO_SRC");
    let folder = env::var("ERGO_SRC").unwrap_or(DEFAULT.into());
    let here = PathBuf::from(env::var("CARGO_MANIFEST_DIR").unwrap());
    let src = here.parent().unwrap().join(folder).join("p2p/src");
    match modules(&src) {
        Ok(text) => {
            let out = PathBuf::from(env::var("OUT_DIR").unwrap());
            fs::write(out.join("modules.rs"), text).unwrap();
        }
        Err(missing) => println!(
            "cargo::error={} is missing: take types.rs, transport/vlq.rs, transport/handshake.rs, \
             transport/frame.rs, protocol/address_sanity.rs and protocol/messages.rs from the folder p2p/src of \
             https://github.com/mwaddip/ergo-node-rust at commit 9c1541183d, and set ERGO_SRC to the folder that \
             holds p2p/src",
            missing.display()
        ),
    }
}

/// The module tree, or the first file that is missing.
fn modules(src: &Path) -> Result<String, PathBuf> {
    let mut text = String::new();
    for (folder, names) in FILES {
        let inner = names.iter().map(|name| module(&src.join(folder).join(name)));
        let inner: String = inner.collect::<Result<_, _>>()?;
        text += &if folder.is_empty() { inner } else { format!("pub mod {folder} {{ {inner} }}") };
    }
    Ok(text)
}

fn module(path: &Path) -> Result<String, PathBuf> {
    let file = path.with_extension("rs");
    if !file.is_file() {
        return Err(file);
    }
    println!("cargo::rerun-if-changed={}", file.display());
    let name = path.file_name().and_then(|name| name.to_str()).unwrap();
    Ok(format!("#[path = {:?}] pub mod {name};", file.to_str().expect("a path in UTF-8")))
}
