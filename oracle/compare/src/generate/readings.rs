//! Bytes to read: packets, lone parts and datagrams, good and damaged, and the
//! positions to read them from.

use super::packets::*;
use crate::rng::Rng;
use model::*;

pub fn kind(rng: &mut Rng) -> Kind {
    rng.pick(&Kind::ALL)
}

pub(super) fn any_kind(rng: &mut Rng) -> Option<Kind> {
    match rng.below(6) {
        5 => None,
        i => Some(Kind::ALL[i]),
    }
}

/// Bytes from a small alphabet: item headers, lengths and zeros are frequent.
pub(super) fn sdes_like(rng: &mut Rng, length: usize) -> Vec<u8> {
    (0..length)
        .map(|_| match rng.below(8) {
            0..=2 => 0,
            3 => 8,
            4 => 1 + rng.below(3) as u8,
            5 => rng.below(6) as u8,
            _ => byte(rng),
        })
        .collect()
}

/// A packet with a fitting header over a body of no particular form.
pub(super) fn rough(rng: &mut Rng, kind: Option<Kind>) -> Vec<u8> {
    let words = rng.pick(&[0, 1, 1, 2, 2, 3, 3, 4, 5, 6, 7, 8, 13, 20]);
    let mut bytes = sdes_like(rng, 4 + 4 * words);
    let p = if rng.once_in(3) { 0x20 } else { 0 };
    bytes[0] = 0x80 + p + rng.pick(&[0, 1, 1, 2, 3, 31]);
    bytes[1] = kind.map_or(195, Kind::packet_type);
    set_length(&mut bytes);
    if p != 0 && !rng.once_in(4) {
        let last = bytes.len() - 1;
        bytes[last] = rng.pick(&[4, 4, 8, 12, 0, 3, (words * 4) as u8]);
    }
    bytes
}

/// The length field that fits, where the bytes are full words.
pub(super) fn set_length(bytes: &mut [u8]) {
    if bytes.len() >= 4 {
        let words = (bytes.len() / 4).saturating_sub(1);
        bytes[2] = (words >> 8) as u8;
        bytes[3] = words as u8;
    }
}

/// A copy with a fault or two.
pub fn damaged(rng: &mut Rng, mut bytes: Vec<u8>) -> Vec<u8> {
    for _ in 0..1 + rng.below(2) {
        match rng.below(11) {
            0 => {
                let keep = rng.below(bytes.len() + 1);
                bytes.truncate(keep);
            }
            1 => {
                let more = 1 + rng.below(5);
                bytes.extend(sdes_like(rng, more));
            }
            2 => {
                let keep = bytes.len() & !3;
                bytes.truncate(keep.saturating_sub(4 * rng.below(3)));
                set_length(&mut bytes);
            }
            3 => {
                let more = 4 * (1 + rng.below(2));
                bytes.extend(sdes_like(rng, more));
                set_length(&mut bytes);
            }
            4 => change(rng, &mut bytes, 0, |rng, old| {
                old & 0xE0 | rng.pick(&[0, 1, 2, 3, 30, 31])
            }),
            5 => change(rng, &mut bytes, 0, |_, old| old ^ 0x20),
            6 => change(rng, &mut bytes, 0, |rng, old| {
                old ^ rng.pick(&[0x40, 0x80, 0xC0])
            }),
            7 => change(rng, &mut bytes, 1, |rng, _| {
                rng.pick(&[199, 200, 201, 202, 203, 204, 205])
            }),
            8 => change(rng, &mut bytes, 3, |rng, old| {
                old.wrapping_add(rng.pick(&[1, 2, 254, 255]))
            }),
            9 => {
                let last = bytes.len().saturating_sub(1);
                change(rng, &mut bytes, last, |rng, _| {
                    rng.pick(&[0, 1, 3, 4, 5, 8, 12, 16, 28, 252, 255])
                });
            }
            _ => {
                let at = rng.below(bytes.len() + 1);
                change(rng, &mut bytes, at, |rng, _| byte(rng));
            }
        }
    }
    bytes
}

pub(super) fn change(rng: &mut Rng, bytes: &mut [u8], at: usize, new: impl Fn(&mut Rng, u8) -> u8) {
    if at < bytes.len() {
        bytes[at] = new(rng, bytes[at]);
    }
}

/// Bytes to read as that kind.
pub fn packet_bytes(rng: &mut Rng, kind: Option<Kind>) -> Vec<u8> {
    match rng.below(8) {
        0..=2 => layout(&packet(rng, kind)),
        3 | 4 => {
            let good = layout(&packet(rng, kind));
            damaged(rng, good)
        }
        5 | 6 => rough(rng, kind),
        _ => {
            let rough = rough(rng, kind);
            damaged(rng, rough)
        }
    }
}

pub(super) fn lone_block(rng: &mut Rng) -> Vec<u8> {
    let length = rng.pick(&[0, 1, 23, 24, 24, 24, 24, 25, 48]);
    let mut block = bytes(rng, length);
    if let (Some(bits), true) = (block.get_mut(5..8), rng.once_in(2)) {
        bits.copy_from_slice(&loss(rng).to_be_bytes()[1..]);
    }
    block
}

pub(super) fn lone_chunk(rng: &mut Rng) -> Vec<u8> {
    let whole = match rng.below(3) {
        0 => {
            let length = rng.below(24);
            sdes_like(rng, length)
        }
        _ => {
            let count = 1 + rng.below(2);
            let chunks = many(rng, count, chunk);
            let packet = Packet {
                content: Content::Sdes { chunks },
                padding: Vec::new(),
            };
            layout(&packet)[4..].to_vec()
        }
    };
    match rng.below(3) {
        0 => damaged(rng, whole),
        _ => whole,
    }
}

pub(super) fn lone_item(rng: &mut Rng) -> Vec<u8> {
    let length = rng.below(6);
    match rng.below(4) {
        0 => sdes_like(rng, length),
        1 => {
            let item = layout_item(&item(rng));
            damaged(rng, item)
        }
        2 => {
            let mut bytes = sdes_like(rng, 2 + length);
            bytes[1] = (length as u8).wrapping_add(rng.pick(&[0, 0, 0, 1, 255]));
            if rng.once_in(2) {
                bytes[0] = PRIV;
            }
            bytes
        }
        _ => {
            let item = layout_item(&item(rng));
            [item, sdes_like(rng, length)].concat()
        }
    }
}

pub(super) fn datagram(rng: &mut Rng) -> Vec<u8> {
    let count = rng.below(4);
    let mut packets = many(rng, count, |rng| {
        let kind = any_kind(rng);
        packet(rng, kind)
    });
    if !rng.once_in(8) {
        let kind = rng.pick(&[Kind::Sr, Kind::Rr]);
        packets.insert(0, packet(rng, Some(kind)));
    }
    if !rng.once_in(4) {
        let mut chunks = vec![chunk(rng)];
        let value = length(rng, 255);
        chunks[0].items.push(Item {
            item_type: CNAME,
            prefix: Vec::new(),
            value: text(rng, value),
        });
        let at = rng.below(packets.len() + 1).max(1.min(packets.len()));
        packets.insert(
            at,
            Packet {
                content: Content::Sdes { chunks },
                padding: padding(rng),
            },
        );
    }
    if !rng.once_in(6) {
        let inner = packets.len().saturating_sub(1);
        for packet in &mut packets[..inner] {
            packet.padding.clear();
        }
    }
    let bytes = packets.iter().flat_map(layout).collect();
    match rng.below(3) {
        0 => damaged(rng, bytes),
        1 => {
            let more = rng.pick(&[0, 0, 0, 1, 2, 3]);
            let rest = sdes_like(rng, more);
            [bytes, rest].concat()
        }
        _ => bytes,
    }
}

/// A position: mostly inside, often at a packet's or chunk's start, rarely far out.
pub(super) fn position(rng: &mut Rng, bytes: &[u8]) -> u64 {
    let len = bytes.len();
    match rng.below(12) {
        0 => u64::MAX - rng.below(5) as u64,
        1 => len as u64,
        2 => (len + 1 + rng.below(3)) as u64,
        3 => rng.below(len + 1) as u64,
        _ => (rng.below(len / 4 + 1) * 4) as u64,
    }
}

/// The position after some of a datagram's packets, or any.
pub(super) fn step_position(rng: &mut Rng, bytes: &[u8]) -> u64 {
    if rng.once_in(3) {
        return position(rng, bytes);
    }
    let mut at = 0;
    for _ in 0..rng.below(4) {
        match step(bytes, at) {
            Ok((_, next)) => at = next,
            Err(_) => break,
        }
    }
    at
}

/// A walk after some of a packet's chunks, at times on other bytes, or any.
pub(super) fn sdes_walk(rng: &mut Rng, bytes: &[u8]) -> SdesWalk {
    let mut walk = SdesWalk {
        position: 4,
        end: bytes.len() as u64,
    };
    if rng.once_in(3) {
        walk.position = position(rng, bytes);
    } else {
        walk = open_sdes(bytes).unwrap_or(walk);
        for _ in 0..rng.below(4) {
            walk = sdes_step(bytes, walk).map_or(walk, |(_, next)| next);
        }
    }
    match rng.below(10) {
        0 => walk.end = walk.position,
        1 => walk.end = walk.position.saturating_add(4),
        2 => walk.end = u64::MAX,
        _ => {}
    }
    walk
}

pub(super) fn index(rng: &mut Rng, count: usize) -> u64 {
    match rng.below(8) {
        0 => u64::MAX,
        1 => count as u64,
        2 => count.saturating_sub(1) as u64,
        _ => rng.below(count + 2) as u64,
    }
}

pub(super) fn low(bytes: &[u8]) -> usize {
    bytes.first().map_or(0, |first| usize::from(first & 31))
}
