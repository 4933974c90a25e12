//! Tells the linker where the port's opened functions stand, where they are asked for.

use std::path::PathBuf;
use std::{env, process};

const FEATURE: &str = "CARGO_FEATURE_FUNCTIONS";
const VARIABLE: &str = "HATCHYARN_FUNCTIONS_DIR";
const ARCHIVE: &str = "libfunctions.a";

fn main() {
    println!("cargo:rerun-if-changed=build.rs");
    if env::var_os(FEATURE).is_none() {
        return;
    }
    println!("cargo:rerun-if-env-changed={VARIABLE}");
    let folder = PathBuf::from(env::var_os(VARIABLE).unwrap_or_default());
    let archive = folder.join(ARCHIVE);
    if !archive.is_file() {
        eprintln!(
            "comparison: the feature `functions` needs {ARCHIVE}, and {VARIABLE} does not name its folder.\n\
             Run ./bench in the top folder of the clone, which makes it and builds with it."
        );
        process::exit(1);
    }
    println!("cargo:rerun-if-changed={}", archive.display());
    println!("cargo:rustc-link-search=native={}", folder.display());
    println!("cargo:rustc-link-lib=static=functions");
}
