//! The compound writer's calls.

use super::writing::{call_with, LentBlocks, LentItems};
use super::{broken, shown, Library};
use crate::view::View;
use library::*;
use model::{Given, SenderInfo, Writer};

impl Library {
    /// An add as C answers it, on a buffer as it stands.
    pub fn add(&self, writer: &mut RtcpWriter, given: &Given, buf: &mut [u8]) -> Option<RtcpCall> {
        call_with!(
            self,
            given,
            [writer, buf],
            rtcp_writer_add_rr,
            rtcp_writer_add_sr,
            rtcp_writer_add_sdes,
            rtcp_writer_add_bye,
            rtcp_writer_add_app
        )
    }

    pub(super) fn added(&self, writer: Writer, given: &Given, before: &[u8]) -> Option<View> {
        let [one, other] = SET.map(|set| {
            let mut buf = self.lend(before);
            let mut view = self.called(writer, set, |writer| self.add(writer, given, &mut buf))?;
            view.bytes("buffer", &buf);
            Some(view)
        });
        both(one?, &other?)
    }

    pub(super) fn closed(&self, writer: Writer) -> Option<View> {
        let [one, other] = SET.map(|set| self.called(writer, set, rtcp_writer_close));
        both(one?, &other?)
    }

    /// A call that is lent the writer: its answer, and the writer after it. On a
    /// refusal that is the one that was lent, else each flag is 0 or 1.
    fn called(
        &self,
        writer: Writer,
        set: u64,
        call: impl FnOnce(&mut RtcpWriter) -> Option<RtcpCall>,
    ) -> Option<View> {
        let lent = handed(writer, set);
        let mut after = self.lend(&[lent]);
        let call = call(&mut after[0])?;
        let after = after[0];
        let mut view = shown(call, |_| {});
        let mut flags = [after.closed, after.padded, after.cname];
        if call.number != 0 {
            if after != lent {
                broken(&mut view, "another writer with a refusal");
            }
            flags = flags.map(|flag| u64::from(flag != 0));
        }
        view.number("so_far", after.length);
        view.number("closed", flags[0]);
        view.number("padded", flags[1]);
        view.number("cname", flags[2]);
        Some(view)
    }
}

/// Numbers that set a flag.
const SET: [u64; 2] = [1, 1 << 63];

fn handed(writer: Writer, set: u64) -> RtcpWriter {
    let flag = |flag| if flag { set } else { 0 };
    RtcpWriter {
        length: writer.length,
        padded: flag(writer.padded),
        cname: flag(writer.cname),
        closed: flag(writer.closed),
    }
}

/// What a set flag's number is does not matter.
fn both(mut one: View, other: &View) -> Option<View> {
    if one != *other {
        broken(&mut one, "another number for a set flag");
    }
    Some(one)
}
