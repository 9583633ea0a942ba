//! rtcp-types 0.3.0 as a side of bench/run, with the arguments and the exit
//! statuses of bench/harness.c: INPUTS OPERATION N|time. `parse-` reads, `lookup-`
//! looks up SSRCs, `write-` writes with a builder that was made before, `build-`
//! makes the builder too.

use std::process::ExitCode;

/// The prefix of a PRIV item.
#[cfg(rtcp_types)]
macro_rules! prefix {
    ($item:expr) => {
        $item.priv_prefix()
    };
}

/// By going over the chunks for each SSRC to the first that has it and a CNAME.
#[cfg(rtcp_types)]
fn looked_up(sdes: &Sdes<'_>, ssrcs: &[u32]) -> u64 {
    let number_of = |ssrc: &u32| {
        let mut chunks = sdes.chunks();
        let index = chunks.position(|chunk| {
            chunk.ssrc() == *ssrc && chunk.items().any(|item| item.type_() == SdesItem::CNAME)
        });
        index.map_or(0, |index| index as u64 + 1)
    };
    ssrcs
        .iter()
        .map(|ssrc| u64::from(*ssrc) * number_of(ssrc))
        .sum()
}

#[cfg(rtcp_types)]
mod operations;
#[cfg(rtcp_types)]
mod stand_in;
#[cfg(rtcp_types)]
mod whole;

#[cfg(rtcp_types)]
fn main() -> ExitCode {
    ExitCode::from(operations::main())
}

#[cfg(not(rtcp_types))]
fn main() -> ExitCode {
    ExitCode::from(3)
}

// compound.rs names the rest of its crate by these paths.
#[cfg(rtcp_types)]
#[allow(unused_imports)]
use rtcp_types::*;
#[cfg(rtcp_types)]
#[allow(unused_imports)]
use stand_in::{feedback, xr, PayloadFeedback, TransportFeedback, Xr};
#[cfg(rtcp_types)]
mod app {
    pub use rtcp_types::{App, AppBuilder};
}
#[cfg(rtcp_types)]
mod bye {
    pub use rtcp_types::{Bye, ByeBuilder};
}
#[cfg(rtcp_types)]
mod receiver {
    pub use rtcp_types::{ReceiverReport, ReceiverReportBuilder};
}
#[cfg(rtcp_types)]
mod sender {
    pub use rtcp_types::{SenderReport, SenderReportBuilder};
}
