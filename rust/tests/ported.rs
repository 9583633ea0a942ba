//! A program written against rtcp-types runs over this crate without a change.

extern crate bokyjave as rtcp_types;

mod program;

#[test]
fn a_ported_program_runs() {
    program::run();
}
