//! The crate in rust/ as a side of bench/run, with the arguments and the exit statuses of bench/harness.c: INPUTS OPERATION N|time.

use rtcp_types::{LookupAnswer, Sdes};
use std::process::ExitCode;

/// The prefix of a PRIV item.
macro_rules! prefix {
    ($item:expr) => {
        $item.priv_prefix().expect("a PRIV item")
    };
}

/// By one call.
fn looked_up(sdes: &Sdes<'_>, ssrcs: &[u32]) -> u64 {
    let mut answers = [LookupAnswer::NONE; 31];
    if sdes.lookup(ssrcs, &mut answers).is_err() {
        return 0;
    }
    let number_of = |answer: LookupAnswer| answer.chunk().map_or(0, |index| u64::from(index) + 1);
    ssrcs
        .iter()
        .zip(answers)
        .map(|(ssrc, answer)| u64::from(*ssrc) * number_of(answer))
        .sum()
}

#[path = "../../../oracle/bench/src/operations.rs"]
mod operations;

/// What rtcp-types' side takes from that crate's own compound.rs.
mod whole {
    pub use rtcp_types::{Compound, CompoundBuilder, Packet};
}

fn main() -> ExitCode {
    ExitCode::from(operations::main())
}
