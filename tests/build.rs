//! Links the archive under test from the directory that PARADOX_LIB names.

use std::path::PathBuf;
use std::process::exit;

const VARIABLE: &str = "PARADOX_LIB";
const DEFAULT: &str = "../target/staticlib";

fn main() {
    let directory =
        std::env::var_os(VARIABLE).map_or_else(|| PathBuf::from(DEFAULT), PathBuf::from);
    let archive = directory.join("libparadox.a");
    println!("cargo:rerun-if-env-changed={VARIABLE}");
    println!("cargo:rerun-if-changed={}", archive.display());
    let Ok(found) = archive.canonicalize() else {
        eprintln!("{} is not there.", archive.display());
        eprintln!("Build the archive first, or let {VARIABLE} name the directory that holds it.");
        exit(1);
    };
    let parent = found.parent().unwrap_or(&directory);
    println!("cargo:rustc-link-search=native={}", parent.display());
    println!("cargo:rustc-link-lib=static=paradox");
}
