//! Passes on whether the sources of rtcp-types were there.

fn main() {
    println!("cargo::rustc-check-cfg=cfg(rtcp_types)");
    if std::env::var_os("DEP_RTCP_TYPES_PRESENT").is_some() {
        println!("cargo::rustc-cfg=rtcp_types");
    }
}
