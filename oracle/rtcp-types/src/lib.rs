//! The crate rtcp-types 0.3.0, from the sources that RTCP_TYPES_SRC names: its
//! files unchanged, its lib.rs as the build script derives it. Empty where the
//! sources are not there.

include!(concat!(env!("OUT_DIR"), "/lib.rs"));
