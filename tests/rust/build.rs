//! Builds the library that one of the checks puts before the C library of the program. Cargo has no way to build it
//! beside the checks: a package has one library, and this one must not be linked into them.

use std::env;
use std::path::PathBuf;
use std::process::Command;

const SOURCE: &str = "preload/interrupted.rs";

fn main() {
    let variable = |name: &str| env::var_os(name).unwrap_or_else(|| panic!("cargo sets {name}"));
    let library = PathBuf::from(variable("OUT_DIR")).join("libinterrupted.so");
    let status = Command::new(variable("RUSTC"))
        .args(["--edition", "2024", "--crate-type", "cdylib", "-C", "opt-level=2", "-o"])
        .arg(&library)
        .arg(SOURCE)
        .status();
    assert!(status.is_ok_and(|status| status.success()), "{SOURCE} is not built");
    println!("cargo::rerun-if-changed={SOURCE}");
    println!("cargo::rustc-env=INTERRUPTED_LIBRARY={}", library.display());
}
