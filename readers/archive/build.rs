//! Names the archive to link.
use std::path::PathBuf;

fn main() {
    println!("cargo:rerun-if-env-changed=VUOLMASET_ARCHIVE");
    let archive = match std::env::var_os("VUOLMASET_ARCHIVE") {
        Some(path) => PathBuf::from(path),
        None => PathBuf::from(std::env::var_os("CARGO_MANIFEST_DIR").unwrap()).join("../../crates/vuolmaset/out/libvuolmaset.a"),
    };
    let archive = archive.canonicalize().unwrap_or_else(|_| panic!("no archive at {}", archive.display()));
    let name = archive.file_stem().unwrap().to_str().unwrap().trim_start_matches("lib").to_owned();
    println!("cargo:rerun-if-changed={}", archive.display());
    println!("cargo:rustc-link-search=native={}", archive.parent().unwrap().display());
    println!("cargo:rustc-link-lib=static:-bundle={name}");
}
