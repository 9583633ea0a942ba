//! The program that the Rust crate's tests run without a change is one of
//! rtcp-types.
#![cfg(rtcp_types)]

#[path = "../../../rust/tests/program/mod.rs"]
mod program;

#[test]
fn the_program_runs_over_rtcp_types() {
    program::run();
}
