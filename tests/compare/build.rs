//! Links the engine's static library, which `tools/build.sh` writes.
//!
//! ENGINE_ARCHIVE names another archive to link in its place; a relative path
//! starts at this folder.

use std::env;
use std::path::PathBuf;

fn main() {
    println!("cargo::rerun-if-changed=build.rs");
    println!("cargo::rerun-if-env-changed=ENGINE_ARCHIVE");
    let folder = PathBuf::from(env::var_os("CARGO_MANIFEST_DIR").expect("cargo sets it"));
    let (archive, advice) = match env::var_os("ENGINE_ARCHIVE") {
        Some(named) => (folder.join(named), "see ENGINE_ARCHIVE"),
        None => (
            folder.join("../../target/staticlib/libengine.a"),
            "run `tools/build.sh` first, or name another archive in ENGINE_ARCHIVE",
        ),
    };
    let parts = (archive.parent(), archive.file_name());
    let (true, (Some(parent), Some(name))) = (archive.is_file(), parts) else {
        println!("cargo::error=there is no archive {}: {advice}", archive.display());
        return;
    };
    println!("cargo::rerun-if-changed={}", archive.display());
    println!("cargo::rustc-link-search=native={}", parent.display());
    println!("cargo::rustc-link-lib=static:+verbatim={}", name.to_string_lossy());
    // The archive's code copies and clears memory by the C library.
    println!("cargo::rustc-link-lib=dylib=c");
}
