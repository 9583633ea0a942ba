//! Packets, lone chunks and lone items written, with their sizes.

use super::{shown, Library};
use crate::view::{Value, View};
use library::guard::{Guarded, Number};
use library::*;
use model::{BlockLists, ChunkLists, Given, Item, ItemLists, Refusal, SenderInfo};

/// The lists of items in guarded memory.
pub(super) struct LentItems {
    pub types: Guarded<u8>,
    pub prefixes: Guarded<u64>,
    pub values: Guarded<u64>,
    pub bytes: Guarded<u8>,
}

/// The lists of blocks in guarded memory.
pub(super) struct LentBlocks {
    pub fractions: Guarded<u8>,
    pub losses: Guarded<i32>,
    pub words: Guarded<u32>,
}

/// Calls the one of the functions that is for the packet given, with its fields in
/// guarded memory behind the arguments that say where it is written.
macro_rules! call_with {
    ($lender:ident, $given:expr, [$($place:expr),*], $rr:ident, $sr:ident, $sdes:ident, $bye:ident, $app:ident) => {
        match $given {
            Given::Report { ssrc, sender, blocks, padding } => {
                let LentBlocks { fractions, losses, words } = $lender.lend_blocks(blocks);
                match sender {
                    None => $rr($($place,)* *ssrc, &fractions, &losses, &words, *padding),
                    Some(SenderInfo { ntp_time, rtp_time, packet_count, octet_count }) => $sr(
                        $($place,)* *ssrc, *ntp_time, *rtp_time, *packet_count, *octet_count,
                        &fractions, &losses, &words, *padding,
                    ),
                }
            }
            Given::Sdes { lists, padding } => {
                let (ssrcs, counts) = ($lender.lend(&lists.ssrcs), $lender.lend(&lists.counts));
                let LentItems { types, prefixes, values, bytes } = $lender.lend_items(&lists.items);
                $sdes($($place,)* &ssrcs, &counts, &types, &prefixes, &values, &bytes, *padding)
            }
            Given::Bye { sources, reason, padding } => {
                let (sources, reason) = ($lender.lend(sources), $lender.lend(reason));
                $bye($($place,)* &sources, &reason, *padding)
            }
            Given::App { subtype, ssrc, name, data, padding } => {
                let (name, data) = ($lender.lend(name), $lender.lend(data));
                $app($($place,)* *subtype, *ssrc, &name, &data, *padding)
            }
        }
    };
}
pub(super) use call_with;

impl Library {
    pub(super) fn lend<T: Number>(&self, items: &[T]) -> Guarded<T> {
        Guarded::new(items, self.0)
    }

    pub(super) fn lend_blocks(&self, blocks: &BlockLists) -> LentBlocks {
        LentBlocks {
            fractions: self.lend(&blocks.fractions),
            losses: self.lend(&blocks.losses),
            words: self.lend(&blocks.words),
        }
    }

    pub(super) fn lend_items(&self, items: &ItemLists) -> LentItems {
        LentItems {
            types: self.lend(&items.types),
            prefixes: self.lend(&items.prefix_lengths),
            values: self.lend(&items.value_lengths),
            bytes: self.lend(&items.bytes),
        }
    }

    pub(super) fn write(&self, given: &Given, before: &[u8]) -> Option<View> {
        let mut buf = self.lend(before);
        let written = call_with!(
            self,
            given,
            [&mut buf],
            rtcp_rr_write,
            rtcp_sr_write,
            rtcp_sdes_write,
            rtcp_bye_write,
            rtcp_app_write
        );
        // A size depends on no SSRC and on no sender's numbers.
        let rr_size = |_, fractions: &_, losses: &_, words: &_, padding| {
            rtcp_rr_size(fractions, losses, words, padding)
        };
        let sr_size = |_, _, _, _, _, fractions: &_, losses: &_, words: &_, padding| {
            rtcp_sr_size(fractions, losses, words, padding)
        };
        let app_size =
            |subtype, _, name: &_, data: &_, padding| rtcp_app_size(subtype, name, data, padding);
        let size = call_with!(
            self,
            given,
            [],
            rr_size,
            sr_size,
            rtcp_sdes_size,
            rtcp_bye_size,
            app_size
        );
        Some(show_written(written?, size, &buf))
    }

    pub(super) fn write_chunk(&self, lists: &ChunkLists, before: &[u8]) -> Option<View> {
        let mut buf = self.lend(before);
        let LentItems {
            types,
            prefixes,
            values,
            bytes,
        } = self.lend_items(&lists.items);
        let written = rtcp_chunk_write(&mut buf, lists.ssrc, &types, &prefixes, &values, &bytes)?;
        let size = rtcp_chunk_size(&types, &prefixes, &values, &bytes);
        Some(show_written(written, size, &buf))
    }

    pub(super) fn write_item(&self, item: &Item, before: &[u8]) -> Option<View> {
        let mut buf = self.lend(before);
        let (prefix, value) = (self.lend(&item.prefix), self.lend(&item.value));
        let written = rtcp_item_write(&mut buf, item.item_type, &prefix, &value)?;
        let size = rtcp_item_size(item.item_type, &prefix, &value);
        Some(show_written(written, size, &buf))
    }
}

fn show_written(written: RtcpWritten, size: Option<RtcpWritten>, buf: &[u8]) -> View {
    let mut view = shown(written, |view| view.number("written", written.size));
    let size = match size {
        None => Value::Unseen,
        Some(size) if size.number == 0 => Value::Number(size.size.into()),
        Some(size) => Value::Refused(Refusal::new(
            u8::try_from(size.number).unwrap_or(u8::MAX),
            size.first,
            size.second,
        )),
    };
    view.put("size", size);
    view.bytes("buffer", buf);
    view
}
