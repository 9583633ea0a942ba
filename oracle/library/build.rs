//! Finds the project's static library, and says which of its functions are
//! there: one that is not is left out of the build.

use std::path::{Path, PathBuf};
use std::{env, fs};

fn main() {
    println!("cargo::rerun-if-env-changed=RTCP_LIB");
    println!("cargo::rerun-if-changed=build.rs");
    println!("cargo::rustc-check-cfg=cfg(c_function, values(any()))");
    let archive = archive();
    println!("cargo::rerun-if-changed={}", archive.display());
    let (Ok(bytes), Some(folder), Some(name)) =
        (fs::read(&archive), archive.parent(), name(&archive))
    else {
        return;
    };
    for symbol in symbols(&bytes) {
        println!("cargo::rustc-cfg=c_function={symbol:?}");
    }
    println!("cargo::rustc-link-search=native={}", folder.display());
    println!("cargo::rustc-link-lib=static={name}");
}

/// The archive. A relative path counts from the project's root.
fn archive() -> PathBuf {
    let package = env::var_os("CARGO_MANIFEST_DIR").expect("cargo sets CARGO_MANIFEST_DIR");
    let root = Path::new(&package).join("../..");
    let named = env::var_os("RTCP_LIB").unwrap_or_else(|| "target/staticlib/librtcp.a".into());
    root.join(named)
}

/// What the linker calls `libNAME.a`.
fn name(archive: &Path) -> Option<&str> {
    archive.file_stem()?.to_str()?.strip_prefix("lib")
}

/// The functions that the archive's index lists. The index is its first member:
/// a header of 60 bytes, a count, that many offsets, then the names.
fn symbols(archive: &[u8]) -> Vec<&str> {
    let index = archive.get(68..).expect("an archive with an index");
    let count = index
        .first_chunk()
        .map_or(0, |count| u32::from_be_bytes(*count) as usize);
    let names = index.get(4 + 4 * count..).unwrap_or_default();
    names
        .split(|byte| *byte == 0)
        .take(count)
        .filter_map(|name| std::str::from_utf8(name).ok())
        .filter(|name| name.starts_with("rtcp_"))
        .collect()
}
