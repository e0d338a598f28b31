//! Names the folder of the crate's five files, OXC_SOURCE, to the compiler. They are compiled where they lie; nothing of them is copied.
use std::path::PathBuf;
use std::{env, fs};

fn main() {
    println!("cargo:rerun-if-env-changed=OXC_SOURCE");
    // The checksum of the five files: another text is compiled anew even if its files are older.
    println!("cargo:rerun-if-env-changed=OXC_SUM");
    let folder = PathBuf::from(env::var_os("OXC_SOURCE").expect("OXC_SOURCE names no folder; tools/crate/run.sh does"));
    let folder = folder.canonicalize().expect("OXC_SOURCE is no folder");
    let mut modules = String::new();
    // arrow.rs is not among them: src/js.rs includes it, since its worker is private to its module.
    for name in ["grammar", "binding", "object", "operator"] {
        let file = folder.join(name).with_extension("rs");
        modules.push_str(&format!("#[path = {file:?}]\n#[allow(warnings)]\npub mod {name};\n"));
    }
    for name in ["arrow", "grammar", "binding", "object", "operator"] {
        println!("cargo:rerun-if-changed={}", folder.join(name).with_extension("rs").display());
    }
    fs::write(PathBuf::from(env::var_os("OUT_DIR").unwrap()).join("four.rs"), modules).unwrap();
    println!("cargo:rustc-env=OXC_SOURCE={}", folder.display());
}
