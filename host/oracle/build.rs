//! Makes the given time.rs a crate of its own: copies it to OUT_DIR with two changes, or leaves the judging to the compiler.

use std::path::PathBuf;
use std::process::Command;
use std::{env, fs};

/// The diagnostic item belongs to core's own Duration, and core's `padding` is private.
const CHANGES: [(&str, &str); 2] = [
    ("#[rustc_diagnostic_item = \"Duration\"]\n", ""),
    ("f.padding(", "crate::padding(f, "),
];

fn main() {
    println!("cargo::rerun-if-changed=build.rs");
    println!("cargo::rerun-if-env-changed=SALTRIBBON_TIME_RS");
    println!("cargo::rustc-check-cfg=cfg(given)");
    match given() {
        Some(text) => {
            let out = PathBuf::from(env::var_os("OUT_DIR").expect("cargo sets OUT_DIR"));
            fs::write(out.join("time.rs"), changed(text)).expect("OUT_DIR can be written");
            // A module and not an include, since time.rs begins with attributes of its own.
            fs::write(out.join("given.rs"), "pub mod time;\n").expect("OUT_DIR can be written");
            println!("cargo::rustc-cfg=given");
            println!("cargo::rustc-env=ORACLE_SOURCE=time.rs of rust-std 1.97.0");
        }
        None => {
            println!(
                "cargo::rustc-env=ORACLE_SOURCE=the compiler's own Duration, {}; mul_f32 and div_f32 by way of its mul_f64 and div_f64",
                compiler()
            );
        }
    }
}

/// The text of time.rs: from the named place, else from the usual one. An empty name asks for the compiler's own.
fn given() -> Option<String> {
    if let Some(named) = env::var_os("SALTRIBBON_TIME_RS") {
        if named.is_empty() {
            return None;
        }
        let path = PathBuf::from(named);
        println!("cargo::rerun-if-changed={}", path.display());
        let text = fs::read_to_string(&path);
        if text.is_err() {
            println!(
                "cargo::error=SALTRIBBON_TIME_RS names {}, which cannot be read: name a time.rs, or unset it",
                path.display()
            );
        }
        return text.ok();
    }
    let root =
        PathBuf::from(env::var_os("CARGO_MANIFEST_DIR").expect("cargo sets it")).join("../..");
    let path = root.join("../shared/docs/src/library/core/src/time.rs");
    println!("cargo::rerun-if-changed={}", path.display());
    fs::read_to_string(path).ok()
}

fn changed(mut text: String) -> String {
    for (old, new) in CHANGES {
        if text.matches(old).count() != 1 {
            println!(
                "cargo::error=time.rs has not exactly one `{}`: is it the one of 1.97.0?",
                old.trim()
            );
        }
        text = text.replace(old, new);
    }
    text
}

/// The compiler's version without its last part, such as 1.95.
fn compiler() -> String {
    let rustc = env::var_os("RUSTC").expect("cargo sets RUSTC");
    let answer = Command::new(rustc)
        .arg("--version")
        .output()
        .expect("rustc runs");
    let text = String::from_utf8_lossy(&answer.stdout).into_owned();
    let version = text.split_whitespace().nth(1).unwrap_or("unknown");
    version
        .rsplit_once('.')
        .map_or(version, |(most, _)| most)
        .to_string()
}
