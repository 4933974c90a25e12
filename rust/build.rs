//! Finds the static library and tells the linker where it stands.

use std::path::{Path, PathBuf};
use std::{env, process};

const VARIABLE: &str = "HATCHYARN_LIB_DIR";
const ARCHIVE: &str = "libhatchyarn.a";

fn main() {
    println!("cargo:rerun-if-changed=build.rs");
    println!("cargo:rerun-if-env-changed={VARIABLE}");
    let folder = folder();
    let archive = folder.join(ARCHIVE);
    if !archive.is_file() {
        eprintln!("{}", advice(&archive));
        process::exit(1);
    }
    println!("cargo:rerun-if-changed={}", archive.display());
    println!("cargo:rustc-link-search=native={}", folder.display());
    println!("cargo:rustc-link-lib=static=hatchyarn");
}

/// The folder that the variable names; else the one that `./build` writes in this clone.
fn folder() -> PathBuf {
    match env::var_os(VARIABLE) {
        Some(named) if !named.is_empty() => PathBuf::from(named),
        _ => Path::new(env!("CARGO_MANIFEST_DIR")).join("../target/host"),
    }
}

fn advice(archive: &Path) -> String {
    format!(
        "hatchyarn: the static library is not at {}.\n\
         Run ./build in the top folder of the clone, which proves the code and writes it there;\n\
         or set {VARIABLE} to the folder of an installed {ARCHIVE}, as PREFIX/lib. Then build again.",
        archive.display()
    )
}
