//! Tells the linker where libmenduvo.a is: in the folder that MENDUVO_LIB_DIR names, else where `bin/library` puts it.
//! Without the feature `link` nothing is linked, and nothing is told.

use std::env;
use std::path::{self, PathBuf};

fn main() {
    println!("cargo:rerun-if-changed=build.rs");
    if env::var_os("CARGO_FEATURE_LINK").is_none() {
        return;
    }
    println!("cargo:rerun-if-env-changed=MENDUVO_LIB_DIR");
    let package = PathBuf::from(env::var_os("CARGO_MANIFEST_DIR").expect("cargo sets CARGO_MANIFEST_DIR"));
    let folder = match env::var_os("MENDUVO_LIB_DIR") {
        Some(folder) => PathBuf::from(folder),
        None => package.join("../../target/staticlib"),
    };
    let archive = folder.join("libmenduvo.a");
    println!("cargo:rerun-if-changed={}", archive.display());
    if !archive.is_file() {
        println!("cargo:warning=there is no {}", archive.display());
        println!("cargo:warning=run 'bin/library', or let MENDUVO_LIB_DIR name the folder that has it");
    }
    // For the build scripts of packages that stand on this one: DEP_MENDUVO_ARCHIVE.
    println!("cargo:archive={}", path::absolute(&archive).unwrap_or(archive).display());
    println!("cargo:rustc-link-search=native={}", folder.display());
    println!("cargo:rustc-link-lib=static=menduvo");
}
