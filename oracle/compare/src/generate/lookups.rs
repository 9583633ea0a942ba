//! Lookups: SDES packets whose chunks share SSRCs, with and without a CNAME, and
//! lists of these and of other SSRCs.

use super::packets::*;
use super::readings::*;
use super::STALE;
use crate::operation::Operation;
use crate::rng::Rng;
use model::*;

/// The SSRCs to look up in a packet: those of its chunks or, where it is refused, a
/// few of its words.
pub fn sources(bytes: &[u8]) -> Vec<u32> {
    match read_as(Kind::Sdes, bytes).map(|packet| packet.content) {
        Ok(Content::Sdes { chunks }) => chunks.iter().map(|chunk| chunk.ssrc).collect(),
        _ => words(bytes).take(4).collect(),
    }
}

/// The words after the first: every chunk's SSRC is one of them.
fn words(bytes: &[u8]) -> impl Iterator<Item = u32> + '_ {
    let word = |bytes: &[u8]| {
        bytes
            .iter()
            .fold(0, |word, byte| word << 8 | u32::from(*byte))
    };
    bytes.chunks_exact(4).skip(1).map(word)
}

pub(super) fn look_up(rng: &mut Rng) -> Operation {
    let bytes = match rng.below(8) {
        0 => packet_bytes(rng, Some(Kind::Sdes)),
        1 => {
            let kind = any_kind(rng);
            packet_bytes(rng, kind)
        }
        2 => {
            let good = named_packet(rng);
            damaged(rng, good)
        }
        _ => named_packet(rng),
    };
    let ssrcs = ssrcs(rng, &bytes);
    let answers = vec![STALE; room(rng, ssrcs.len())];
    Operation::LookUp(bytes, ssrcs, answers)
}

/// A packet of any count of chunks. These share a few SSRCs, or have any.
fn named_packet(rng: &mut Rng) -> Vec<u8> {
    let count = match rng.below(3) {
        0 => rng.below(32),
        _ => count(rng),
    };
    let shared = rng.once_in(2);
    let chunks = many(rng, count, |rng| Chunk {
        ssrc: if shared { few(rng) } else { word(rng) },
        items: named_items(rng),
    });
    let mut padding = padding(rng);
    if padding.len() > 8 && rng.once_in(2) {
        // As a chunk with a CNAME.
        padding[..4].copy_from_slice(&few(rng).to_be_bytes());
        padding[4..8].copy_from_slice(&[CNAME, 1, b'a', 0]);
    }
    let content = Content::Sdes { chunks };
    layout(&Packet { content, padding })
}

fn few(rng: &mut Rng) -> u32 {
    rng.pick(&[0, 1, 2, 3, 0x0100_0000, u32::MAX])
}

/// None, or a NAME, a PRIV without a prefix or any items, then at times a CNAME, and
/// at times any items after it.
fn named_items(rng: &mut Rng) -> Vec<Item> {
    let mut named = match rng.below(8) {
        0..=4 => Vec::new(),
        5 => vec![short(rng, 2)],
        6 => vec![short(rng, PRIV)],
        _ => items(rng),
    };
    if rng.once_in(2) {
        named.push(short(rng, CNAME));
    }
    if rng.once_in(8) {
        named.extend(items(rng));
    }
    named
}

fn short(rng: &mut Rng, item_type: u8) -> Item {
    let length = rng.below(6);
    Item {
        item_type,
        prefix: Vec::new(),
        value: text(rng, length),
    }
}

/// The SSRCs of the chunks in order or in reverse, or any list: empty, short, as long
/// as a packet may have chunks, or longer than any packet's.
fn ssrcs(rng: &mut Rng, bytes: &[u8]) -> Vec<u32> {
    let sources = sources(bytes);
    let count = match rng.below(32) {
        0..=5 => return sources,
        6 | 7 => return sources.into_iter().rev().collect(),
        8 | 9 => 0,
        10 => 30 + rng.below(3),
        11 => 33 + rng.below(300),
        _ => 1 + rng.below(6),
    };
    many(rng, count, |rng| sought(rng, bytes, &sources))
}

/// Mostly an SSRC of the packet, at times 0, one that is near to it, any of the
/// packet's words, or any.
fn sought(rng: &mut Rng, bytes: &[u8], sources: &[u32]) -> u32 {
    let all = bytes.len() / 4;
    match (rng.below(12), sources) {
        (0, _) | (_, []) => word(rng),
        (1, _) => words(bytes).nth(rng.below(all + 1)).unwrap_or(0),
        (2, _) => 0,
        (3, _) => rng.pick(sources) ^ 1 << rng.below(32),
        (4, _) => rng.pick(sources).swap_bytes(),
        _ => rng.pick(sources),
    }
}

/// Room for the answers to so many: at times for one fewer or for any fewer.
fn room(rng: &mut Rng, count: usize) -> usize {
    match rng.below(8) {
        0 => count.saturating_sub(1),
        1 => rng.below(count + 1),
        2..=5 => count,
        _ => count + 1 + rng.below(9),
    }
}
