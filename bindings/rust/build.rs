//! Links the proved static library, `libblink_native.a`: from the folder that the environment variable BLINK_NATIVE_LIB_DIR
//! names, or else from this repository's target/staticlib, where `rt staticlib blink_native` writes it.
use std::env;
use std::path::{Path, PathBuf};

const FOLDER: &str = "BLINK_NATIVE_LIB_DIR";

fn main() {
    println!("cargo:rerun-if-env-changed={FOLDER}");
    let own = Path::new(env!("CARGO_MANIFEST_DIR")).join("../../target/staticlib");
    let folder = env::var_os(FOLDER).map_or(own, PathBuf::from);
    let archive = folder.join("libblink_native.a");
    assert!(
        archive.exists(),
        "{} is not there: run `rt staticlib blink_native`, or set {FOLDER} to the library's folder",
        archive.display()
    );
    println!("cargo:rerun-if-changed={}", archive.display());
    println!("cargo:rustc-link-search=native={}", folder.display());
    println!("cargo:rustc-link-lib=static=blink_native");
}
