//! Finds MartyPC's three files and tells the compiler where they stand.
//!
//! The files are compiled where they are and are never copied, so that what
//! answers is MartyPC's text and nothing else. The tree is named by an
//! environment variable, because its place differs from machine to machine.

use std::path::{Path, PathBuf};
use std::{env, fs, process};

const VARIABLE: &str = "MARTYPC_TREE";
const SOURCES: &str = "crates/lib/marty_core/src";
const FILES: [&str; 3] = ["cpu_common/alu.rs", "cpu_808x/muldiv.rs", "cpu_808x/bcd.rs"];

fn main() {
    println!("cargo:rerun-if-changed=build.rs");
    println!("cargo:rerun-if-env-changed={VARIABLE}");
    if let Err(wrong) = prepare() {
        eprintln!("{}", advice(&wrong));
        process::exit(1);
    }
}

/// Checks the tree and writes the module declarations.
fn prepare() -> Result<(), String> {
    let tree = match env::var_os(VARIABLE) {
        Some(tree) if !tree.is_empty() => PathBuf::from(tree),
        _ => return Err(format!("the environment variable {VARIABLE} is not set")),
    };
    let mut found = Vec::new();
    for file in FILES {
        found.push(locate(&tree, file)?);
    }
    let out = env::var_os("OUT_DIR").ok_or("cargo did not set OUT_DIR")?;
    let target = Path::new(&out).join("martypc.rs");
    fs::write(&target, declarations(&found))
        .map_err(|error| format!("cannot write {}: {error}", target.display()))
}

/// The whole path of one file. A path relative to the build would not do:
/// the declaration is read from another folder.
fn locate(tree: &Path, file: &str) -> Result<String, String> {
    let path = tree.join(SOURCES).join(file);
    let whole = fs::canonicalize(&path)
        .map_err(|error| format!("cannot find {}: {error}", path.display()))?;
    if !whole.is_file() {
        return Err(format!("{} is not a file", whole.display()));
    }
    match whole.into_os_string().into_string() {
        Ok(text) => {
            println!("cargo:rerun-if-changed={text}");
            Ok(text)
        }
        Err(_) => Err(format!("the path of {file} is not valid Unicode")),
    }
}

/// The modules as MartyPC's own `use` lines expect them. Warnings about
/// MartyPC's text are not ours to act on, so they are silenced here.
fn declarations(paths: &[String]) -> String {
    let module = |name: &str, path: &str| {
        format!(
            "    #[allow(warnings, clippy::all)]\n    #[path = {path:?}]\n    pub mod {name};\n"
        )
    };
    let alu = module("alu", &paths[0]);
    let muldiv = module("muldiv", &paths[1]);
    let bcd = module("bcd", &paths[2]);
    format!(
        "/// MartyPC's arithmetic leaves.\n\
         pub mod cpu_common {{\n{alu}}}\n\
         /// MartyPC's multiply, divide and decimal routines, over the shim.\n\
         pub mod cpu_808x {{\n    pub use crate::shim::*;\n{muldiv}{bcd}}}\n"
    )
}

fn advice(wrong: &str) -> String {
    let mut text = format!(
        "oracle: {wrong}.\n\
         The oracle compiles three files of MartyPC, unchanged, from a tree outside this repository:\n"
    );
    for file in FILES {
        text += &format!("    {SOURCES}/{file}\n");
    }
    text += &format!(
        "Fetch dbalsom/martypc at commit 05c0d088e8 and set {VARIABLE} to the whole path of its top\n\
         folder, the one that holds `crates`. Then build again.\n"
    );
    text
}
