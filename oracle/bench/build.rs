//! Passes on whether the sources of rtcp-types were there, and where its
//! compound.rs is.

fn main() {
    println!("cargo::rustc-check-cfg=cfg(rtcp_types)");
    if let Ok(folder) = std::env::var("DEP_RTCP_TYPES_FOLDER") {
        println!("cargo::rustc-cfg=rtcp_types");
        println!("cargo::rustc-env=RTCP_TYPES_COMPOUND={folder}/compound.rs");
        println!("cargo::rerun-if-changed={folder}/compound.rs");
    }
    println!("cargo::rerun-if-changed=build.rs");
}
