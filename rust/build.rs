//! Finds librtcp.a.

use std::path::{Path, PathBuf};
use std::{env, process};

fn main() {
    println!("cargo::rerun-if-env-changed=RTCP_LIB_DIR");
    println!("cargo::rerun-if-changed=build.rs");
    let folder = folder();
    let archive = folder.join("librtcp.a");
    println!("cargo::rerun-if-changed={}", archive.display());
    if !archive.is_file() {
        println!(
            "cargo::error=librtcp.a is not in {}: build it by `make` in the project's root, or name its folder in RTCP_LIB_DIR",
            folder.display()
        );
        process::exit(1);
    }
    println!("cargo::rustc-link-search=native={}", folder.display());
    println!("cargo::rustc-link-lib=static=rtcp");
}

/// The folder of the archive: the one named, else where the project builds it. A
/// relative path counts from this package.
fn folder() -> PathBuf {
    let package = env::var_os("CARGO_MANIFEST_DIR").expect("cargo sets CARGO_MANIFEST_DIR");
    let named = env::var_os("RTCP_LIB_DIR").unwrap_or_else(|| "../target/staticlib".into());
    Path::new(&package).join(named)
}
