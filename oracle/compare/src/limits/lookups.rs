//! Lookups: answer buffers on both sides of the list's length, every mixture of few
//! chunks, every count of chunks, and the largest packets and lists.

use super::{packet, strings, SMALL};
use crate::generate::STALE;
use crate::operation::Operation;
use model::*;

/// The list with an answer buffer that is empty, one short, exact and longer.
pub fn look_ups(bytes: &[u8], ssrcs: &[u32], visit: &mut dyn FnMut(Operation)) {
    let count = ssrcs.len();
    let mut rooms = vec![0, count.saturating_sub(1), count, count + 3];
    rooms.dedup();
    for room in rooms {
        let (bytes, ssrcs) = (bytes.to_vec(), ssrcs.to_vec());
        visit(Operation::LookUp(bytes, ssrcs, vec![STALE; room]));
    }
}

pub(super) fn lookups(visit: &mut dyn FnMut(Operation)) {
    headers(visit);
    bodies(visit);
    mixtures(visit);
    counts(visit);
    large_packets(visit);
    large_lists(visit);
}

/// Every version, P and a few counts, with every length around the stated one.
fn headers(visit: &mut dyn FnMut(Operation)) {
    let rest = [0, 0, 0, 1, 1, 1, b'c', 0, 0, 0, 0, 4];
    for top in (0..=0xE0).step_by(0x20) {
        for low in [0, 1, 2, 31] {
            for packet_type in [199, 201, 202, 203] {
                for words in 0..4 {
                    let header = [top | low, packet_type, 0, words];
                    let bytes = [&header[..], &rest].concat();
                    for length in 0..=bytes.len() {
                        look_ups(&bytes[..length], &[], visit);
                        look_ups(&bytes[..length], &[1], visit);
                    }
                }
            }
        }
    }
}

/// Short bodies over the bytes that make up items, with and without padding.
fn bodies(visit: &mut dyn FnMut(Operation)) {
    for low in 0..4 {
        strings(&SMALL, 4, &mut |tail| {
            let rest = [&[0, 0, 0, 1], tail].concat();
            let padded = [&rest[..], &[0, 0, 0, 4]].concat();
            look_ups(&packet(Kind::Sdes, 0x80 | low, &rest), &[1, 0], visit);
            look_ups(&packet(Kind::Sdes, 0xA0 | low, &padded), &[1, 0], visit);
        });
    }
}

const SSRCS: [u32; 3] = [0, 0x0102_0304, u32::MAX];

/// No item; a NAME; a CNAME; an empty one; one behind a NAME; one behind a PRIV
/// without a prefix.
const ITEMS: [&[u8]; 6] = [
    &[0; 4],
    &[2, 1, b'n', 0],
    &[1, 1, b'c', 0],
    &[1, 0, 0, 0],
    &[2, 1, b'n', 1, 1, b'c', 0, 0],
    &[8, 1, 0, 1, 1, b'c', 0, 0],
];

fn chunk(ssrc: u32, items: &[u8]) -> Vec<u8> {
    [&ssrc.to_be_bytes(), items].concat()
}

/// Up to three chunks, each with any of the SSRCs and any of the items.
fn mixtures(visit: &mut dyn FnMut(Operation)) {
    let pairs = SSRCS
        .iter()
        .flat_map(|ssrc| ITEMS.map(|items| chunk(*ssrc, items)));
    let chunks: Vec<Vec<u8>> = pairs.collect();
    let places: Vec<u8> = (0..chunks.len() as u8).collect();
    let sought = [&SSRCS[..], &[0x0403_0201, 0]].concat();
    for count in 0..4 {
        strings(&places, count, &mut |places| {
            let of = |place: &u8| chunks[usize::from(*place)].clone();
            let rest: Vec<u8> = places.iter().flat_map(of).collect();
            let bytes = packet(Kind::Sdes, 0x80 | count as u8, &rest);
            let answers = vec![STALE; sought.len()];
            visit(Operation::LookUp(bytes, sought.clone(), answers));
        });
    }
}

/// Every count of chunks, their SSRCs looked up in order, in reverse and twice, with
/// a CNAME in each chunk, in none, in the last, or in every third.
fn counts(visit: &mut dyn FnMut(Operation)) {
    for low in 0..32u8 {
        let named: [&dyn Fn(u8) -> bool; 4] =
            [&|_| true, &|_| false, &|i| i + 1 == low, &|i| i % 3 == 0];
        for named in named {
            let of = |i: u8| chunk((100 + i).into(), ITEMS[if named(i) { 2 } else { 1 }]);
            let rest: Vec<u8> = (0..low).flat_map(of).collect();
            let padded = [&rest[..], &[0, 0, 0, 4]].concat();
            let ssrcs: Vec<u32> = (100..100 + u32::from(low)).collect();
            let reversed: Vec<u32> = ssrcs.iter().rev().copied().collect();
            for bytes in [
                packet(Kind::Sdes, 0x80 | low, &rest),
                packet(Kind::Sdes, 0xA0 | low, &padded),
            ] {
                look_ups(&bytes, &ssrcs, visit);
                look_ups(&bytes, &reversed, visit);
                look_ups(&bytes, &[&ssrcs[..], &ssrcs].concat(), visit);
            }
        }
    }
}

/// The longest packet, one chunk of NAMEs with a CNAME as the first item, the last or
/// none; and 30 chunks before a long one.
fn large_packets(visit: &mut dyn FnMut(Operation)) {
    let items = PACKET_LIMIT / 4 - 3;
    for place in [0, items - 1, items] {
        let mut rest = vec![2; PACKET_LIMIT - 4];
        rest[PACKET_LIMIT - 8..].fill(0);
        rest[4 + 4 * place] = rest[4 + 4 * place].min(CNAME);
        let bytes = packet(Kind::Sdes, 0x81, &rest);
        look_ups(&bytes, &[0x0202_0202, 1], visit);
        let mut many: Vec<u8> = (0..30).flat_map(|i| chunk(i, ITEMS[1])).collect();
        many.extend(&rest[many.len()..]);
        let bytes = packet(Kind::Sdes, 0x9F, &many);
        look_ups(&bytes, &[0x0202_0202, 1], visit);
    }
}

/// Lists longer than any number of chunks, of one byte and of two.
fn large_lists(visit: &mut dyn FnMut(Operation)) {
    let rest: Vec<u8> = (0..31).flat_map(|i| chunk(i, ITEMS[2])).collect();
    let bytes = packet(Kind::Sdes, 0x9F, &rest);
    for count in [32, 255, 256, 257, 65_535, 65_536, 65_537] {
        let ssrcs: Vec<u32> = (0..count).map(|i| i % 33).collect();
        look_ups(&bytes, &ssrcs, visit);
    }
}
