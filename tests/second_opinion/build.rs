//! Tells cargo where the library's static archive is. It stands in EXPORT_ARCHIVE, or else where tests/native
//! writes it: target/native/libexport.a at the repository's top. The library part of this package (the plain
//! implementation and its unit tests) needs no archive.

use std::path::{Path, PathBuf};

fn main() {
    println!("cargo:rerun-if-changed=build.rs");
    println!("cargo:rerun-if-env-changed=EXPORT_ARCHIVE");
    let here = PathBuf::from(std::env::var_os("CARGO_MANIFEST_DIR").expect("cargo sets this"));
    let archive = match std::env::var_os("EXPORT_ARCHIVE") {
        Some(named) => PathBuf::from(named),
        None => here.join("../../target/native/libexport.a"),
    };
    println!("cargo:rerun-if-changed={}", archive.display());
    if Path::new(&archive).exists() {
        println!("cargo:rustc-link-arg-bins={}", archive.display());
    } else {
        println!("cargo:warning={} does not exist: run tests/native first", archive.display());
    }
}
