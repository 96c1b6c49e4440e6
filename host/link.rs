//! Shared by the build scripts: links one static archive made from the proved crates.

use std::env;
use std::path::PathBuf;

/// Links lib`archive`.a from the folder SALTRIBBON_LIB, else from target/native under the repository's root.
pub fn link(archive: &str) {
    println!("cargo::rerun-if-changed=build.rs");
    println!("cargo::rerun-if-changed=../link.rs");
    println!("cargo::rerun-if-env-changed=SALTRIBBON_LIB");
    let folder = match env::var_os("SALTRIBBON_LIB") {
        Some(named) => PathBuf::from(named),
        None => PathBuf::from(env::var_os("CARGO_MANIFEST_DIR").expect("cargo sets it"))
            .join("../../target/native"),
    };
    let file = folder.join(format!("lib{archive}.a"));
    println!("cargo::rerun-if-changed={}", file.display());
    if !file.is_file() {
        println!(
            "cargo::error=lib{archive}.a is missing in {}: run `./run` or `host/archive {archive}`",
            folder.display()
        );
        return;
    }
    println!("cargo::rustc-link-search=native={}", folder.display());
    println!("cargo::rustc-link-lib=static={archive}");
}
