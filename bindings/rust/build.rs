//! Links the proved library `libexports.a`.
//!
//! It is looked for in the folder that WEAVESTALL_LIB names, else in target/staticlib of the repository. Where it is
//! not there yet, bindings/library makes it, which needs the Rattle kit.

use std::path::{Path, PathBuf};
use std::process::Command;

fn main() {
    println!("cargo:rerun-if-env-changed=WEAVESTALL_LIB");
    let processor = std::env::var("CARGO_CFG_TARGET_ARCH").expect("cargo sets it");
    assert!(
        processor == "x86_64",
        "rt writes libexports.a for x86-64, and this build is for {processor}: build for x86_64-unknown-linux-gnu"
    );
    let here = PathBuf::from(std::env::var("CARGO_MANIFEST_DIR").expect("cargo sets it"));
    let folder = match std::env::var_os("WEAVESTALL_LIB") {
        Some(folder) => PathBuf::from(folder),
        None => made(&here.join("../..")),
    };
    let archive = folder.join("libexports.a");
    assert!(
        archive.is_file(),
        "there is no {}: run bindings/library in the repository, or set WEAVESTALL_LIB to the folder that has it",
        archive.display()
    );
    println!("cargo:rerun-if-changed={}", archive.display());
    println!("cargo:rustc-link-search=native={}", folder.display());
    println!("cargo:rustc-link-lib=static=exports");
}

fn made(root: &Path) -> PathBuf {
    let folder = root.join("target/staticlib");
    if !folder.join("libexports.a").is_file() {
        let outcome = Command::new(root.join("bindings/library")).status();
        if let Err(error) = outcome {
            println!("cargo:warning=bindings/library did not start: {error}");
        }
    }
    folder
}
