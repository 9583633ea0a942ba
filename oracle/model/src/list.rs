//! All parts of a packet or a datagram at once, as the numbers of lists: what
//! reading gives, in the lists and rows that include/rtcp.h names. The places are
//! those of the layout.

use crate::compound::read_compound;
use crate::layout::{layout, layout_chunk, layout_item};
use crate::packet::*;
use crate::read::read_as;
use crate::refusal::{Answer, Refusal};
use crate::write::BlockLists;

/// What a list is of.
#[derive(Clone, Copy, Debug, PartialEq, Eq, Hash)]
pub enum Listing {
    /// The blocks of an SR or an RR, in three lists: fractions, losses and words.
    Blocks(Kind),
    /// The chunks of an SDES, with their items.
    Items,
    /// The packets of a datagram.
    Packets,
}

impl Listing {
    pub const ALL: [Listing; 4] = [
        Listing::Blocks(Kind::Sr),
        Listing::Blocks(Kind::Rr),
        Listing::Items,
        Listing::Packets,
    ];

    /// The numbers that there are, list by list. An `i128` holds every number of 64
    /// bits and every loss.
    pub fn numbers(self, bytes: &[u8]) -> Answer<Vec<Vec<i128>>> {
        if self == Listing::Packets {
            return Ok(vec![packet_rows(&read_compound(bytes)?)]);
        }
        let kind = match self {
            Listing::Blocks(kind) => kind,
            _ => Kind::Sdes,
        };
        Ok(match read_as(kind, bytes)?.content {
            Content::Report { blocks, .. } => block_lists(&blocks),
            Content::Sdes { chunks } => vec![chunk_rows(&chunks)],
            _ => Vec::new(),
        })
    }

    /// The numbers at the start of each list, and how many blocks or numbers these
    /// are. Where a list is too short there is 10, after every other refusal.
    pub fn fill(self, bytes: &[u8], lists: &mut [Vec<i128>]) -> Answer<u64> {
        let numbers = self.numbers(bytes)?;
        let count = numbers[0].len() as u64;
        let mut pairs = lists.iter().zip(&numbers);
        if pairs.any(|(list, numbers)| list.len() < numbers.len()) {
            return Err(Refusal::output_too_small(count));
        }
        for (list, numbers) in lists.iter_mut().zip(&numbers) {
            list[..numbers.len()].copy_from_slice(numbers);
        }
        Ok(count)
    }
}

fn block_lists(blocks: &[Block]) -> Vec<Vec<i128>> {
    let lists = BlockLists::of(blocks);
    vec![
        wide(&lists.fractions),
        wide(&lists.losses),
        wide(&lists.words),
    ]
}

fn wide<T: Copy + Into<i128>>(numbers: &[T]) -> Vec<i128> {
    numbers.iter().map(|number| (*number).into()).collect()
}

/// A row for each item, and one for the closing zero of each chunk.
fn chunk_rows(chunks: &[Chunk]) -> Vec<i128> {
    let mut rows = Vec::new();
    let mut start = 4;
    for chunk in chunks {
        let ssrc = chunk.ssrc.into();
        let mut at = start + 4;
        for item in &chunk.items {
            let [prefix, value] = [&item.prefix, &item.value].map(|part| part.len() as i128);
            at += layout_item(item).len() as i128;
            rows.extend([ssrc, item.item_type.into(), at - value, prefix, value]);
        }
        rows.extend([ssrc, 0, at, 0, 0]);
        start += layout_chunk(chunk).len() as i128;
    }
    rows
}

fn packet_rows(packets: &[Packet]) -> Vec<i128> {
    let mut rows = Vec::new();
    let mut at = 0;
    for packet in packets {
        let length = layout(packet).len() as i128;
        rows.extend([packet.packet_type().into(), at, length]);
        at += length;
    }
    rows
}
