//! Inputs by enumeration: short ones exhaustively, every length around each
//! boundary, both sides of every limit.

mod lookups;
mod receptions;

use crate::generate::{lengths, sdes_lists, stale_lists, LOSSES, LOSSES_OUTSIDE, STALE};
use crate::operation::Operation;
pub use lookups::look_ups;
use lookups::lookups;
use model::*;
use receptions::receptions;

/// No byte, and packets with nothing in them: no chunk, padding alone, a chunk
/// without an item, a report without a block.
pub const NOTHING: [&[u8]; 5] = [
    &[],
    &[0x80, 202, 0, 0],
    &[0xA0, 202, 0, 1, 0, 0, 0, 4],
    &[0x81, 202, 0, 2, 1, 2, 3, 4, 0, 0, 0, 0],
    &[0x80, 201, 0, 1, 0, 0, 0, 1],
];

/// Hands every enumerated operation to `visit`, always in the same order.
pub fn enumerate(visit: &mut dyn FnMut(Operation)) {
    headers(visit);
    reports(visit);
    block_losses(visit);
    byes(visit);
    apps(visit);
    sdes_packets(visit);
    lone_parts(visit);
    large_packets(visit);
    large_steps(visit);
    fill_blocks(visit);
    fill_items(visit);
    fill_packets(visit);
    lookups(visit);
    receptions(visit);
    report_writes(visit);
    bye_writes(visit);
    app_writes(visit);
    item_writes(visit);
    sdes_writes(visit);
}

// ---- reading

fn packet(kind: Kind, first: u8, rest: &[u8]) -> Vec<u8> {
    let words = (rest.len() / 4) as u16;
    let [high, low] = words.to_be_bytes();
    [&[first, kind.packet_type(), high, low], rest].concat()
}

/// Every string of that length over an alphabet.
fn strings(alphabet: &[u8], length: usize, visit: &mut dyn FnMut(&[u8])) {
    let mut digits = vec![0; length];
    loop {
        let string: Vec<u8> = digits.iter().map(|digit| alphabet[*digit]).collect();
        visit(&string);
        let Some(at) = digits.iter().position(|digit| digit + 1 < alphabet.len()) else {
            return;
        };
        digits[..at].fill(0);
        digits[at] += 1;
    }
}

/// Every first byte with every length around a kind's least one.
fn headers(visit: &mut dyn FnMut(Operation)) {
    for kind in Kind::ALL {
        let least = kind.least();
        for first in 0..=255 {
            for packet_type in [kind.packet_type(), 199] {
                for words in [least / 4 - 1, least / 4, least / 4 + 1] {
                    for len in (0..4).chain(least - 2..least + 10) {
                        let mut bytes = vec![4; len];
                        let header = [first, packet_type, 0, words as u8];
                        let known = len.min(4);
                        bytes[..known].copy_from_slice(&header[..known]);
                        visit(Operation::ReadAs(kind, bytes));
                    }
                }
            }
        }
        for packet_type in 0..=255 {
            let mut bytes = packet(kind, 0x80, &vec![0; least - 4]);
            bytes[1] = packet_type;
            visit(Operation::ReadAs(kind, bytes));
        }
    }
}

/// The padding counts to try at the end of a packet.
const COUNTS: [u8; 14] = [0, 1, 2, 3, 4, 5, 8, 12, 16, 20, 24, 28, 252, 255];

fn with_paddings(kind: Kind, low: u8, rest: &[u8], visit: &mut dyn FnMut(Operation)) {
    visit(Operation::ReadAs(kind, packet(kind, 0x80 | low, rest)));
    for count in COUNTS {
        let mut bytes = packet(kind, 0xA0 | low, rest);
        if let Some(last) = bytes[4..].last_mut() {
            *last = count;
        }
        visit(Operation::ReadAs(kind, bytes));
    }
}

/// Every block count with every word length around the end of the blocks.
fn reports(visit: &mut dyn FnMut(Operation)) {
    for kind in [Kind::Sr, Kind::Rr] {
        for low in 0..32 {
            let end = kind.least() - 4 + 24 * usize::from(low);
            let shortest = end.saturating_sub(28).max(kind.least() - 4);
            for len in (shortest..=end + 28).step_by(4) {
                let rest: Vec<u8> = (0..len).map(|i| i as u8).collect();
                with_paddings(kind, low, &rest, visit);
            }
            for index in [0, 1, low.saturating_sub(1), low, low + 1, 255] {
                let bytes = packet(kind, 0x80 | low, &vec![7; end]);
                visit(Operation::ReadBlockAt(kind, bytes, index.into()));
            }
        }
    }
    for len in 0..=50 {
        let bytes: Vec<u8> = (0..len).map(|i| 255 - i).collect();
        visit(Operation::ReadBlock(bytes));
    }
}

/// The edges of the range, and every power of two, its negative and the numbers
/// beside these.
fn losses() -> Vec<i32> {
    let mut losses = [&LOSSES[..], &LOSSES_OUTSIDE].concat();
    for bit in 0..32 {
        for power in [1i64 << bit, -1 << bit] {
            let beside = [power - 1, power, power + 1];
            losses.extend(beside.iter().filter_map(|loss| i32::try_from(*loss).ok()));
        }
    }
    losses.sort_unstable();
    losses.dedup();
    losses
}

/// Every loss of 24 bits among these, behind any fraction, in a lone block, in the
/// second of a report's blocks and in the lists of its blocks.
fn block_losses(visit: &mut dyn FnMut(Operation)) {
    for loss in losses() {
        if !(LOSS_LEAST..=LOSS_MOST).contains(&loss) {
            continue;
        }
        for fraction in [0, 0x7F, 0x80, 0xFF] {
            let mut block = [7; 24];
            block[4..8].copy_from_slice(&loss.to_be_bytes());
            block[4] = fraction;
            visit(Operation::ReadBlock(block.to_vec()));
            for kind in [Kind::Sr, Kind::Rr] {
                let rest = vec![!fraction; kind.least() - 4 + 24];
                let bytes = packet(kind, 0x82, &[&rest[..], &block].concat());
                visit(Operation::ReadAs(kind, bytes.clone()));
                visit(Operation::ReadBlockAt(kind, bytes.clone(), 0));
                visit(Operation::ReadBlockAt(kind, bytes.clone(), 1));
                lists(Listing::Blocks(kind), &bytes, visit);
            }
        }
    }
}

/// Every source count with every word length around the end of the sources,
/// and every reason length around the end of the body.
fn byes(visit: &mut dyn FnMut(Operation)) {
    for low in (0..5).chain(29..32) {
        let sources = 4 * usize::from(low);
        for len in (sources.saturating_sub(8)..=sources + 12).step_by(4) {
            for reason in (0..16).chain(250..=255) {
                let mut rest = vec![9; len];
                if len > sources {
                    rest[sources] = reason;
                }
                with_paddings(Kind::Bye, low, &rest, visit);
            }
            for index in [0, u64::from(low), u64::from(low) + 1] {
                let bytes = packet(Kind::Bye, 0x80 | low, &vec![0; len]);
                visit(Operation::ReadSourceAt(bytes, index));
            }
        }
    }
    for reason in 0..=255 {
        let rest = vec![reason; 256];
        with_paddings(Kind::Bye, 0, &rest, visit);
    }
}

fn apps(visit: &mut dyn FnMut(Operation)) {
    for low in [0, 1, 31] {
        for words in 2..10 {
            let rest: Vec<u8> = (0..4 * words).collect();
            with_paddings(Kind::App, low, &rest, visit);
        }
    }
}

/// Bytes that make up items, fill and PRIV prefixes.
const SMALL: [u8; 4] = [0, 1, 2, 8];

fn sdes_packets(visit: &mut dyn FnMut(Operation)) {
    for low in 0..4 {
        for ssrc in [[0, 0, 0, 0], [0, 0, 0, 1], [1, 0, 0, 0]] {
            strings(&SMALL, 4, &mut |tail| {
                let rest = [&ssrc[..], tail].concat();
                with_paddings(Kind::Sdes, low, &rest, visit);
            });
        }
    }
    for low in [1, 2] {
        strings(&SMALL, 8, &mut |tail| {
            let rest = [&[0, 0, 0, 1], tail].concat();
            visit(Operation::ReadAs(
                Kind::Sdes,
                packet(Kind::Sdes, 0x80 | low, &rest),
            ));
            visit(Operation::ReadAs(
                Kind::Sdes,
                packet(Kind::Sdes, 0xA0 | low, &[&rest[..], &[0, 0, 0, 4]].concat()),
            ));
        });
    }
}

/// Lone items and chunks, odd lengths among them.
fn lone_parts(visit: &mut dyn FnMut(Operation)) {
    let all: Vec<u8> = (0..=255).collect();
    let mut item = |bytes: &[u8]| {
        visit(Operation::ReadItem(bytes.to_vec()));
        visit(Operation::ReadPrefix(bytes.to_vec()));
    };
    for length in 0..=2 {
        strings(&all, length, &mut item);
    }
    for length in 3..=5 {
        strings(&[0, 1, 2, 3, 8, 255], length, &mut item);
    }
    for length in 0..=255usize {
        for left in [length.saturating_sub(1), length, length + 1, 256] {
            let mut bytes = vec![length as u8; 2 + left];
            for item_type in [0, 1, 8] {
                bytes[0] = item_type;
                item(&bytes);
            }
            for prefix in [length.saturating_sub(2), length.saturating_sub(1)] {
                if let Some(byte) = bytes.get_mut(2) {
                    *byte = prefix as u8;
                    item(&bytes);
                }
            }
        }
    }
    let mut chunk = |bytes: &[u8]| visit(Operation::ReadChunk(bytes.to_vec()));
    for length in 0..4 {
        strings(&[0, 1], length, &mut chunk);
    }
    for length in 0..8 {
        strings(&SMALL, length, &mut |tail| {
            chunk(&[&[0, 0, 0, 1], tail].concat());
        });
    }
}

/// The longest packet of each kind, also with a word too few or too many, alone
/// and in a datagram.
fn large_packets(visit: &mut dyn FnMut(Operation)) {
    let mut datagram = packet(Kind::Rr, 0x80, &[0; 4]);
    let cname = [0, 0, 0, 1, 1, 1, b'c', 0];
    datagram.extend(packet(Kind::Sdes, 0x81, &cname));
    for kind in Kind::ALL {
        let mut rest = vec![2; PACKET_LIMIT - 4];
        if kind == Kind::Sdes {
            // 65,533 items of 4 bytes, and the closing zeros.
            rest[PACKET_LIMIT - 8..].fill(0);
        }
        for first in [0x81, 0xA1] {
            let mut bytes = packet(kind, first, &rest);
            if first == 0xA1 {
                bytes[PACKET_LIMIT - 1] = 4;
            }
            let whole = [&datagram[..], &bytes].concat();
            visit(Operation::Step(whole.clone(), datagram.len() as u64));
            visit(Operation::ReadCompound(whole));
            for length in [PACKET_LIMIT, PACKET_LIMIT - 4, PACKET_LIMIT + 4] {
                bytes.resize(length, 0);
                visit(Operation::ReadAs(kind, bytes.clone()));
            }
        }
    }
}

/// Steps around the place where an SDES step stops to look.
fn large_steps(visit: &mut dyn FnMut(Operation)) {
    let chunks: [&[u8]; 5] = [
        &[0, 0, 0, 1],
        &[0, 0, 0, 1, 1, 0],
        &[0, 0, 0, 1, 1, 2, b'a', b'b'],
        &[0, 0, 0, 1, 1, 9],
        &[0, 0, 0, 1, 8, 3, 2, b'a', b'b', 2, 0, 2],
    ];
    for more in [0, 1, 4, 40] {
        let zeros = vec![0; SDES_LIMIT + more];
        for position in SDES_LIMIT - 16..=SDES_LIMIT + more {
            for chunk in chunks {
                let mut bytes = zeros.clone();
                let end = (position + chunk.len()).min(bytes.len());
                bytes[position..end].copy_from_slice(&chunk[..end - position]);
                let position = position as u64;
                for end in [position + 4, u64::MAX] {
                    visit(Operation::SdesStep(
                        bytes.clone(),
                        SdesWalk { position, end },
                    ));
                }
            }
        }
    }
}

// ---- lists filled with what is read

/// Lists of every length around the right one, all of them and each alone, and
/// around the one from which on items are not counted first.
pub fn lists(listing: Listing, bytes: &[u8], visit: &mut dyn FnMut(Operation)) {
    let right = lengths(listing, bytes);
    let around = |right: usize| [0, right.saturating_sub(1), right, right + 1];
    let mut tried: Vec<Vec<usize>> = Vec::new();
    for i in 0..4 {
        tried.push(right.iter().map(|right| around(*right)[i]).collect());
        for at in 0..right.len() {
            let mut lengths = right.clone();
            lengths[at] = around(right[at])[i];
            tried.push(lengths);
        }
    }
    if listing == Listing::Items {
        let enough = bytes.len() / 2 * 5;
        tried.extend([vec![enough.saturating_sub(1)], vec![enough]]);
    }
    tried.sort_unstable();
    tried.dedup();
    for lengths in tried {
        let before = stale_lists(listing, &lengths);
        visit(Operation::List(listing, bytes.to_vec(), before));
    }
}

/// Every count of blocks, in a packet that has them, lacks a word of them, or has
/// more.
fn fill_blocks(visit: &mut dyn FnMut(Operation)) {
    for kind in [Kind::Sr, Kind::Rr] {
        for low in 0..32 {
            let end = kind.least() - 4 + 24 * usize::from(low);
            for len in [end.saturating_sub(4), end, end + 8] {
                let rest: Vec<u8> = (0..len).map(|i| (3 * i) as u8).collect();
                let bytes = packet(kind, 0x80 | low, &rest);
                lists(Listing::Blocks(kind), &bytes, visit);
            }
        }
    }
}

/// Every count of chunks, each with none to two items; short bodies exhaustively;
/// and as many items as a packet has room for.
fn fill_items(visit: &mut dyn FnMut(Operation)) {
    let mut fill = |bytes: &[u8]| lists(Listing::Items, bytes, visit);
    let chunk = |i: u8| -> Vec<u8> {
        let items: [&[u8]; 3] = [&[0; 4], &[1, 1, 7, 0], &[8, 2, 1, 9, 2, 0, 0, 0]];
        [&[i, 0, 0, i], items[usize::from(i % 3)]].concat()
    };
    for low in 0..32 {
        let rest: Vec<u8> = (0..low).flat_map(chunk).collect();
        fill(&packet(Kind::Sdes, 0x80 | low, &rest));
        fill(&packet(
            Kind::Sdes,
            0xA0 | low,
            &[&rest[..], &[0, 0, 0, 4]].concat(),
        ));
    }
    strings(&SMALL, 4, &mut |tail| {
        fill(&packet(Kind::Sdes, 0x81, &[&[0, 0, 0, 1], tail].concat()));
    });
    let mut rest = [2, 0].repeat(PACKET_LIMIT / 2 - 2);
    rest[PACKET_LIMIT - 8..].fill(0);
    fill(&packet(Kind::Sdes, 0x81, &rest));
}

/// Datagrams of up to 40 packets, with and without a CNAME.
fn fill_packets(visit: &mut dyn FnMut(Operation)) {
    let report = packet(Kind::Rr, 0x80, &[0; 4]);
    let cname = packet(Kind::Sdes, 0x81, &[0, 0, 0, 1, 1, 1, b'c', 0]);
    let unknown = [0x80, 195, 0, 0];
    for count in 0..40 {
        let more = unknown.repeat(count);
        for bytes in [
            [&report[..], &cname, &more].concat(),
            [&report[..], &more].concat(),
        ] {
            lists(Listing::Packets, &bytes, visit);
        }
    }
}

// ---- writing

/// A write into buffers around its size, and into one that is far longer.
fn writes(size: Answer<u64>, operation: impl Fn(Vec<u8>) -> Operation) -> Vec<Operation> {
    let size = size.map_or(0, |size| size as usize);
    [0, size.saturating_sub(1), size, size + 5, size + 1000]
        .map(|length| operation(vec![STALE; length]))
        .into()
}

fn packet_writes(given: Given, visit: &mut dyn FnMut(Operation)) {
    let operations = writes(size(&given), |buffer| {
        Operation::Write(given.clone(), buffer)
    });
    operations.into_iter().for_each(&mut *visit);
    // From so many bytes on the library takes an SDES to fit however its items are spread.
    if let Given::Sdes { lists, .. } = &given {
        let ample = 252 + 3 * lists.items.types.len() + lists.items.bytes.len();
        for length in [ample - 1, ample] {
            visit(Operation::Write(given.clone(), vec![STALE; length]));
        }
    }
}

/// Lengths of a report's lists, each of them one too short or too long, or five
/// for the words.
fn disagreeing() -> Vec<[usize; 3]> {
    let mut lengths = Vec::new();
    for count in [1usize, 2, 31, 32] {
        let right = [count, count, 5 * count];
        for list in 0..3 {
            for change in [-5, -1, 1, 5] {
                let mut wrong = right;
                wrong[list] = wrong[list].saturating_add_signed(change);
                lengths.push(wrong);
            }
        }
    }
    lengths
}

fn some_block(cumulative_lost: i32) -> Block {
    Block {
        ssrc: 0x0102_0304,
        fraction_lost: 5,
        cumulative_lost,
        extended_sequence: 0x0A0B_0C0D,
        jitter: 6,
        last_sr: 0x0E0F_1011,
        delay: 7,
    }
}

fn report_writes(visit: &mut dyn FnMut(Operation)) {
    let sender = SenderInfo {
        ntp_time: 0x1122_3344_5566_7788,
        rtp_time: 1,
        packet_count: 2,
        octet_count: u32::MAX,
    };
    for sender in [None, Some(sender)] {
        let mut lent = |blocks: BlockLists, padding: u64| {
            let given = Given::Report {
                ssrc: 0xDEAD_BEEF,
                sender,
                blocks,
                padding,
            };
            packet_writes(given, visit);
        };
        for [fractions, losses, words] in disagreeing() {
            let blocks = BlockLists {
                fractions: vec![5; fractions],
                losses: vec![i32::MAX; losses],
                words: vec![6; words],
            };
            lent(blocks, 1);
        }
        for (losses, padding) in given_losses() {
            let blocks: Vec<Block> = losses.into_iter().map(some_block).collect();
            lent(BlockLists::of(&blocks), padding);
        }
    }
}

/// The losses of a report's blocks, with a padding: every count of blocks, every
/// padding, every loss.
fn given_losses() -> Vec<(Vec<i32>, u64)> {
    let mut given = Vec::new();
    for count in 0..35 {
        for padding in [0, 4, 3] {
            given.extend([-0x54_3211, i32::MIN].map(|loss| (vec![loss; count], padding)));
        }
    }
    given.extend((0..=260).map(|padding| (vec![1], padding)));
    for loss in losses() {
        given.extend([
            (vec![loss], 0),
            (vec![-3, loss], 4),
            (vec![loss, i32::MAX], 0),
        ]);
    }
    given
}

fn bye_writes(visit: &mut dyn FnMut(Operation)) {
    let mut bye = |sources: u32, reason: usize, padding: u64| {
        let given = Given::Bye {
            sources: (1..=sources).collect(),
            reason: vec![b'r'; reason],
            padding,
        };
        packet_writes(given, visit);
    };
    for sources in 0..35 {
        for reason in [0, 1, 2, 3, 4, 256] {
            for padding in [0, 4, 2] {
                bye(sources, reason, padding);
            }
        }
    }
    for reason in 0..=260 {
        for padding in [0, 4, 8, 252, 255] {
            bye(1, reason, padding);
        }
    }
    for padding in 0..=260 {
        for reason in 0..5 {
            bye(1, reason, padding);
        }
    }
}

fn app_writes(visit: &mut dyn FnMut(Operation)) {
    let mut app = |subtype: u64, name: &[u8], data: usize, padding: u64| {
        let given = Given::App {
            subtype,
            ssrc: 0x8000_0001,
            name: name.to_vec(),
            data: vec![0xD7; data],
            padding,
        };
        packet_writes(given, visit);
    };
    for subtype in 0..=260 {
        app(subtype, b"name", 4, 0);
        app(subtype, b"names", 3, 1);
    }
    for padding in 0..=260 {
        app(1, b"name", 4, padding);
    }
    let names: [&[u8]; 9] = [
        b"",
        b"a",
        b"ab",
        b"abc",
        b"abcd",
        b"abcde",
        b"\x00\x7F",
        "é".as_bytes(),
        &[0x80],
    ];
    for name in names {
        for data in 0..9 {
            app(31, name, data, 4);
            app(31, name, data, 5);
        }
    }
    for data in [262_128, 262_132, 262_133, 262_136, 262_140] {
        for padding in [0, 4, 8] {
            app(0, b"big", data, padding);
        }
    }
}

fn item_of(item_type: u8, prefix: usize, value: usize) -> Item {
    Item {
        item_type,
        prefix: vec![0xF0; prefix],
        value: vec![b'v'; value],
    }
}

fn item_writes(visit: &mut dyn FnMut(Operation)) {
    let mut item = |item: Item| {
        let operations = writes(size_of_item(&item), |buffer| {
            Operation::WriteItem(item.clone(), buffer)
        });
        operations.into_iter().for_each(&mut *visit);
    };
    for item_type in 0..=255 {
        for value in [0, 1, 254, 255, 256] {
            item(item_of(item_type, 3, value));
        }
    }
    for prefix in 0..=257 {
        let most = 254usize.saturating_sub(prefix);
        for value in [0, most.saturating_sub(1), most, most + 1, 300] {
            item(item_of(PRIV, prefix, value));
            item(item_of(0, prefix, value));
        }
    }
}

fn sdes_writes(visit: &mut dyn FnMut(Operation)) {
    let mut chunk = |items: &[Item]| {
        let lists = ChunkLists {
            ssrc: 0x0708_090A,
            items: ItemLists::of(items),
        };
        let operations = writes(size_of_chunk(&lists), |buffer| {
            Operation::WriteChunk(lists.clone(), buffer)
        });
        operations.into_iter().for_each(&mut *visit);
    };
    chunk(&[]);
    for value in 0..=257 {
        chunk(&[item_of(1, 0, value)]);
        chunk(&[item_of(1, 2, value), item_of(PRIV, 2, value)]);
        chunk(&[item_of(3, 0, value), item_of(0, 0, 1)]);
    }
    // 1019 items of 257 bytes, and one that brings the chunk to its limit.
    let full = vec![item_of(2, 0, 255); 1019];
    for value in [246, 247, 250, 251, 255] {
        chunk(&[&full[..], &[item_of(1, 0, value)]].concat());
    }
    let mut sdes = |chunks: &[(u32, Vec<Item>)], padding: u64| {
        let given = Given::Sdes {
            lists: sdes_lists(chunks),
            padding,
        };
        packet_writes(given, visit);
    };
    for count in 0..35 {
        for padding in [0, 4, 6] {
            let chunks: Vec<_> = (0..count)
                .map(|i| (i, vec![item_of(1, 0, i as usize)]))
                .collect();
            sdes(&chunks, padding);
        }
    }
    for padding in 0..=260 {
        sdes(&[(1, vec![item_of(8, 1, 1)])], padding);
    }
    for value in 246..=251 {
        for padding in [0, 4] {
            let items = [&full[..], &[item_of(1, 0, value)]].concat();
            sdes(&[(1, items)], padding);
        }
    }
    for value in 0..5 {
        let items = vec![item_of(1, 0, value), item_of(0, 0, 256), item_of(8, 255, 0)];
        sdes(&[(1, items.clone())], 0);
        sdes(&[(1, items[..1].to_vec()), (2, items[2..].to_vec())], 0);
    }
}
