// Links crates/vuolmaset/out/libvuolmaset.a of the repository, or the one in the folder that VUOLMASET_ARCHIVE names. `rt lib` in `crates/vuolmaset` makes it.
fn main() {
    let here = std::env::var("CARGO_MANIFEST_DIR").expect("cargo sets CARGO_MANIFEST_DIR");
    let folder = std::env::var("VUOLMASET_ARCHIVE").unwrap_or(format!("{here}/../../crates/vuolmaset/out"));
    println!("cargo:rustc-link-search=native={folder}");
    println!("cargo:rustc-link-lib=static=vuolmaset");
    println!("cargo:rerun-if-env-changed=VUOLMASET_ARCHIVE");
    println!("cargo:rerun-if-changed={folder}/libvuolmaset.a");
}
