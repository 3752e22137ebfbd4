//! Gives the command the SHA-256 of the library that it is linked with, which the package of the bindings names.

use std::env;
use std::fs;

#[path = "src/sha256.rs"]
mod sha256;

fn main() {
    println!("cargo:rerun-if-changed=build.rs");
    println!("cargo:rerun-if-changed=src/sha256.rs");
    let archive = env::var("DEP_MENDUVO_ARCHIVE").unwrap_or_default();
    println!("cargo:rerun-if-changed={archive}");
    // Where there is no library the package of the bindings says so, and nothing is linked.
    let hash = fs::read(archive).map_or("unknown".to_string(), |bytes| sha256::hex(&bytes));
    println!("cargo:rustc-env=MENDUVO_LIBRARY_SHA256={hash}");
}
