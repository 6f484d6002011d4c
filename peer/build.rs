//! Links the other implementation's archive, for the feature `archive` only: the library and its
//! unit tests must build without it.

use std::env;
use std::path::PathBuf;

const FOLDER: &str = "BLOCKPLAN_LIB_DIR";
const LIBRARY: &str = "blockplan_c";

fn main() {
    println!("cargo:rerun-if-changed=build.rs");
    println!("cargo:rerun-if-env-changed={FOLDER}");
    if env::var_os("CARGO_FEATURE_ARCHIVE").is_some() {
        link();
    }
}

fn link() {
    let folder = folder();
    let archive = folder.join(format!("lib{LIBRARY}.a"));
    assert!(archive.exists(), "{} is not there: run `rt lib` in crates/{LIBRARY}", archive.display());
    println!("cargo:rustc-link-search=native={}", folder.display());
    println!("cargo:rustc-link-lib=static={LIBRARY}");
    // Without this a rebuilt archive would not be linked again.
    println!("cargo:rerun-if-changed={}", archive.display());
}

/// The folder that the variable names, or the one in which the archive is made.
fn folder() -> PathBuf {
    let made = || PathBuf::from(env!("CARGO_MANIFEST_DIR")).join("../crates/blockplan_c/out");
    env::var_os(FOLDER).map_or_else(made, PathBuf::from)
}
