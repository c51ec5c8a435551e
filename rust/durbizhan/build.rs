//! Links the library's static archive. It stands in EXPORT_ARCHIVE, or else where the repository builds it: on x86-64
//! `tests/native` writes target/staticlib/libexport.a, on another processor target/native/libexport.a.

use std::path::{Path, PathBuf};

/// Where the archive stands.
fn archive() -> PathBuf {
    if let Some(named) = std::env::var_os("EXPORT_ARCHIVE") {
        return PathBuf::from(named);
    }
    let here = PathBuf::from(std::env::var_os("CARGO_MANIFEST_DIR").expect("cargo sets this"));
    let built = match std::env::var("CARGO_CFG_TARGET_ARCH").as_deref() {
        Ok("x86_64") => "staticlib",
        _ => "native",
    };
    here.join("../../target").join(built).join("libexport.a")
}

/// The name by which a linker knows an archive: that of its file without `lib` and `.a`.
fn name_of(archive: &Path) -> Option<&str> {
    archive.file_name()?.to_str()?.strip_prefix("lib")?.strip_suffix(".a")
}

fn main() {
    println!("cargo:rerun-if-changed=build.rs");
    println!("cargo:rerun-if-env-changed=EXPORT_ARCHIVE");
    let archive = archive();
    println!("cargo:rerun-if-changed={}", archive.display());
    match (archive.canonicalize(), name_of(&archive)) {
        (Ok(found), Some(name)) => {
            println!("cargo:rustc-link-search=native={}", found.parent().expect("a file").display());
            println!("cargo:rustc-link-lib=static={name}");
        }
        _ => println!("cargo:warning={}: no archive, so nothing can be linked; build it first", archive.display()),
    }
}
