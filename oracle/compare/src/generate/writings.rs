//! What is given to a write, on both sides of every limit.

use super::packets::*;
use crate::rng::Rng;
use model::*;

pub(super) fn given_padding(rng: &mut Rng) -> u64 {
    match rng.below(12) {
        0..=5 => 0,
        6..=8 => rng.pick(&[4, 8, 12, 248, 252]),
        9 => rng.pick(&[1, 2, 3, 5, 6, 251, 253, 254, 255]),
        10 => 4 * rng.below(70) as u64,
        _ => rng.pick(&[256, 260, 1 << 32, u64::MAX, u64::MAX - 3]),
    }
}

/// Mostly a few, at times on either side of 31.
pub(super) fn given_count(rng: &mut Rng) -> usize {
    match rng.below(30) {
        0 => 31,
        1 => 32,
        2 => 33 + rng.below(3),
        3..=8 => 0,
        _ => 1 + rng.below(3),
    }
}

/// Mostly short, at times on either side of a limit.
pub(super) fn given_length(rng: &mut Rng, limit: usize) -> usize {
    match rng.below(24) {
        0 => limit,
        1 => limit + 1,
        2 => limit + rng.below(40),
        3 => limit.saturating_sub(rng.below(12)),
        4..=7 => 0,
        _ => rng.below(9),
    }
}

pub(super) fn given_item(rng: &mut Rng) -> Item {
    let item_type = if rng.once_in(30) { 0 } else { item_type(rng) };
    let prefix = match (item_type, rng.below(3)) {
        (PRIV, _) => given_length(rng, 254),
        (_, 0) => given_length(rng, 255),
        _ => 0,
    };
    let value = match item_type {
        PRIV => given_length(rng, 254usize.saturating_sub(prefix)),
        _ => given_length(rng, 255),
    };
    Item {
        item_type,
        prefix: text(rng, prefix),
        value: text(rng, value),
    }
}

/// The flat lists of chunks.
pub fn sdes_lists(chunks: &[(u32, Vec<Item>)]) -> SdesLists {
    let items: Vec<Item> = chunks.iter().flat_map(|(_, items)| items.clone()).collect();
    SdesLists {
        ssrcs: chunks.iter().map(|(ssrc, _)| *ssrc).collect(),
        counts: chunks.iter().map(|(_, items)| items.len() as u64).collect(),
        items: ItemLists::of(&items),
    }
}

/// Makes lists disagree, or one agree in sum only.
pub(super) fn disturb(rng: &mut Rng, lists: &mut ItemLists) {
    match rng.below(7) {
        0 => lists.bytes.push(1),
        1 => drop(lists.bytes.pop()),
        2 => drop(lists.types.pop()),
        3 => lists.prefix_lengths.push(0),
        4 => drop(lists.value_lengths.pop()),
        5 => {
            let wrong = rng.pick(&[1, 1 << 32, u64::MAX]);
            if let Some(length) = lists.value_lengths.first_mut() {
                *length = length.wrapping_add(wrong);
            }
        }
        _ => {
            lists.value_lengths.reverse();
            lists.prefix_lengths.reverse();
        }
    }
}

/// A report whose lists of blocks disagree, or that has one block more.
pub(super) fn disturbed_report(rng: &mut Rng) -> Given {
    let kind = rng.pick(&[Kind::Sr, Kind::Rr]);
    let mut report = given(rng, kind);
    if let Given::Report { blocks, .. } = &mut report {
        disturb_blocks(rng, blocks);
    }
    report
}

fn disturb_blocks(rng: &mut Rng, lists: &mut BlockLists) {
    match rng.below(8) {
        0 => drop(lists.fractions.pop()),
        1 => lists.fractions.push(1),
        2 => drop(lists.losses.pop()),
        3 => lists.losses.push(i32::MAX),
        4 => drop(lists.words.pop()),
        5 => lists.words.push(1),
        6 => lists.words.extend([1; 5]),
        _ => {
            lists.fractions.push(1);
            lists.losses.push(2);
            lists.words.extend([3; 5]);
        }
    }
}

pub(super) fn given_items(rng: &mut Rng) -> Vec<Item> {
    let count = rng.pick(&[0, 0, 1, 1, 1, 2, 3]);
    many(rng, count, given_item)
}

pub(super) fn given_chunk_lists(rng: &mut Rng) -> ChunkLists {
    let items = given_items(rng);
    let mut items = ItemLists::of(&items);
    if rng.once_in(8) {
        disturb(rng, &mut items);
    }
    ChunkLists {
        ssrc: word(rng),
        items,
    }
}

pub(super) fn given_sdes_lists(rng: &mut Rng) -> SdesLists {
    let count = given_count(rng);
    let chunks = many(rng, count, |rng| {
        let items = if count > 4 {
            Vec::new()
        } else {
            given_items(rng)
        };
        (word(rng), items)
    });
    let mut lists = sdes_lists(&chunks);
    if rng.once_in(8) {
        match rng.below(5) {
            0 => lists.ssrcs.push(7),
            1 => drop(lists.ssrcs.pop()),
            2 => lists.counts.push(rng.pick(&[0, 1, u64::MAX])),
            3 => {
                let wrong = rng.pick(&[1, u64::MAX]);
                if let Some(count) = lists.counts.first_mut() {
                    *count = count.wrapping_add(wrong);
                }
            }
            _ => disturb(rng, &mut lists.items),
        }
    }
    lists
}

fn given_subtype(rng: &mut Rng) -> u64 {
    match rng.below(4) {
        0 => rng.pick(&[30, 31, 32, 255, 256, u64::MAX]),
        _ => rng.below(32) as u64,
    }
}

/// Losses beside the range, at the ends of 24 and of 32 bits.
pub const LOSSES_OUTSIDE: [i32; 12] = [
    LOSS_LEAST - 1,
    LOSS_LEAST - 2,
    LOSS_MOST + 1,
    LOSS_MOST + 2,
    0xFF_FFFF,
    0x100_0000,
    -0xFF_FFFF,
    -0x100_0000,
    i32::MIN,
    i32::MIN + 1,
    i32::MAX - 1,
    i32::MAX,
];

/// A loss outside the range: an edge, a power of two or its negative, or any.
fn loss_outside(rng: &mut Rng) -> i32 {
    // As many are below the range as above it.
    let past = rng.below((i32::MAX - LOSS_MOST) as usize) as i32;
    match rng.below(8) {
        0..=2 => rng.pick(&LOSSES_OUTSIDE),
        3 => 1 << (23 + rng.below(8)),
        4 => -1 << (24 + rng.below(8)),
        // What 24 bits without a sign have.
        5 => LOSS_MOST + 1 + past % (1 << 23),
        6 => LOSS_MOST + 1 + past,
        _ => LOSS_LEAST - 1 - past,
    }
}

/// Blocks, at times with a loss outside the range in one of them or in two.
fn given_blocks(rng: &mut Rng) -> Vec<Block> {
    let count = given_count(rng);
    let mut blocks = many(rng, count, block);
    if count > 0 && rng.once_in(4) {
        for _ in 0..1 + rng.below(2) {
            blocks[rng.below(count)].cumulative_lost = loss_outside(rng);
        }
    }
    blocks
}

pub fn given(rng: &mut Rng, kind: Kind) -> Given {
    let padding = given_padding(rng);
    match kind {
        Kind::Sr | Kind::Rr => Given::Report {
            blocks: BlockLists::of(&given_blocks(rng)),
            ssrc: word(rng),
            sender: (kind == Kind::Sr).then(|| sender_info(rng)),
            padding,
        },
        Kind::Sdes => Given::Sdes {
            lists: given_sdes_lists(rng),
            padding,
        },
        Kind::Bye => {
            let count = given_count(rng);
            let reason = given_length(rng, 255);
            Given::Bye {
                sources: many(rng, count, word),
                reason: text(rng, reason),
                padding,
            }
        }
        Kind::App => {
            let name = rng.pick(&[0, 1, 2, 3, 4, 4, 4, 4, 5]);
            let name = text(rng, name);
            let data = if rng.once_in(8) {
                rng.below(9)
            } else {
                4 * rng.below(5)
            };
            Given::App {
                subtype: given_subtype(rng),
                ssrc: word(rng),
                name,
                data: bytes(rng, data),
                padding,
            }
        }
    }
}
