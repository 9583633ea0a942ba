//! The crate's own compound.rs.
#![allow(dead_code)]

include!(env!("RTCP_TYPES_COMPOUND"));
