//! Numbers, bytes, and packets that a datagram may have.

use crate::rng::Rng;
use model::*;

pub(super) fn byte(rng: &mut Rng) -> u8 {
    match rng.below(8) {
        0 | 1 => 0,
        2 => rng.pick(&[1, 2, 3, 4, 8, 12]),
        3 => rng.pick(&[0x7F, 0x80, 0xFC, 0xFF]),
        _ => rng.draw() as u8,
    }
}

pub(super) fn bytes(rng: &mut Rng, length: usize) -> Vec<u8> {
    (0..length).map(|_| byte(rng)).collect()
}

pub(super) fn word(rng: &mut Rng) -> u32 {
    match rng.below(6) {
        0 => rng.pick(&[0, 1, 255, 256, 0xFF_FFFF, 0x100_0000, u32::MAX]),
        1 => rng.draw() as u32 & 0xFFFF,
        _ => rng.draw() as u32,
    }
}

/// Mostly ASCII, at times with a character of two bytes, rarely not UTF-8.
pub(super) fn text(rng: &mut Rng, length: usize) -> Vec<u8> {
    let mut text: Vec<u8> = (0..length).map(|_| b'a' + rng.below(26) as u8).collect();
    if length >= 2 && rng.once_in(12) {
        let at = rng.below(length - 1);
        text[at..at + 2].copy_from_slice("\u{E9}".as_bytes());
    }
    if length > 0 && rng.once_in(40) {
        text[rng.below(length)] = rng.pick(&[0, 0x7F, 0x80, 0xFF]);
    }
    text
}

/// Mostly short, sometimes around a limit.
pub(super) fn length(rng: &mut Rng, limit: usize) -> usize {
    match rng.below(40) {
        0 => limit,
        1 => limit - 1,
        2..=6 => 0,
        _ => rng.below(9).min(limit),
    }
}

// ---- packets

/// Losses at both ends of the range, and around 0.
pub const LOSSES: [i32; 9] = [
    0,
    1,
    2,
    -1,
    -2,
    LOSS_LEAST,
    LOSS_LEAST + 1,
    LOSS_MOST - 1,
    LOSS_MOST,
];

/// A loss that a block can have: an edge, a power of two or its negative, or any.
pub(super) fn loss(rng: &mut Rng) -> i32 {
    let bits = rng.below(1 << 24) as i32;
    match rng.below(8) {
        0 | 1 => rng.pick(&LOSSES),
        2 => 1 << rng.below(23),
        3 => -(1 << rng.below(24)),
        4 => bits % 1000 - 500,
        // The 24th bit is the sign.
        5 => bits / 2 + LOSS_LEAST,
        _ => bits + LOSS_LEAST,
    }
}

pub(super) fn block(rng: &mut Rng) -> Block {
    Block {
        ssrc: word(rng),
        fraction_lost: byte(rng),
        cumulative_lost: loss(rng),
        extended_sequence: word(rng),
        jitter: word(rng),
        last_sr: word(rng),
        delay: word(rng),
    }
}

pub(super) fn sender_info(rng: &mut Rng) -> SenderInfo {
    SenderInfo {
        ntp_time: u64::from(word(rng)) << 32 | u64::from(word(rng)),
        rtp_time: word(rng),
        packet_count: word(rng),
        octet_count: word(rng),
    }
}

pub(super) fn many<T>(rng: &mut Rng, count: usize, make: impl Fn(&mut Rng) -> T) -> Vec<T> {
    (0..count).map(|_| make(rng)).collect()
}

/// Mostly a few, sometimes none, rarely all 31.
pub(super) fn count(rng: &mut Rng) -> usize {
    match rng.below(60) {
        0 => 31,
        1 => 30,
        2..=14 => 0,
        _ => 1 + rng.below(3),
    }
}

pub(super) fn item_type(rng: &mut Rng) -> u8 {
    match rng.below(6) {
        0 | 1 => CNAME,
        2 | 3 => PRIV,
        4 => 1 + rng.below(9) as u8,
        _ => 1 + rng.below(255) as u8,
    }
}

/// An item as a packet has it: no prefix on other types than PRIV.
pub(super) fn item(rng: &mut Rng) -> Item {
    let item_type = item_type(rng);
    if item_type == PRIV {
        let prefix = length(rng, 254);
        let value = length(rng, 254 - prefix.min(253)).min(254 - prefix);
        Item {
            item_type,
            prefix: text(rng, prefix),
            value: text(rng, value),
        }
    } else {
        let value = length(rng, 255);
        Item {
            item_type,
            prefix: Vec::new(),
            value: text(rng, value),
        }
    }
}

pub(super) fn items(rng: &mut Rng) -> Vec<Item> {
    let count = rng.pick(&[0, 0, 1, 1, 1, 2, 3]);
    many(rng, count, item)
}

pub(super) fn chunk(rng: &mut Rng) -> Chunk {
    Chunk {
        ssrc: word(rng),
        items: items(rng),
    }
}

pub(super) fn padding(rng: &mut Rng) -> Vec<u8> {
    if !rng.once_in(4) {
        return Vec::new();
    }
    let count = rng.pick(&[4, 4, 4, 8, 12, 252]);
    let mut padding = bytes(rng, count);
    padding[count - 1] = count as u8;
    padding
}

pub(super) fn content(rng: &mut Rng, kind: Option<Kind>) -> Content {
    match kind {
        Some(Kind::Sr | Kind::Rr) => {
            let count = count(rng);
            let extension = 4 * rng.pick(&[0, 0, 0, 1, 2, 6]);
            Content::Report {
                ssrc: word(rng),
                sender: (kind == Some(Kind::Sr)).then(|| sender_info(rng)),
                blocks: many(rng, count, block),
                extension: bytes(rng, extension),
            }
        }
        Some(Kind::Sdes) => {
            let count = count(rng);
            Content::Sdes {
                chunks: many(rng, count, chunk),
            }
        }
        Some(Kind::Bye) => {
            let count = count(rng);
            let sources = many(rng, count, word);
            if rng.once_in(3) {
                return Content::Bye {
                    sources,
                    reason: None,
                    tail: Vec::new(),
                };
            }
            let reason = length(rng, 255);
            let tail = (7 - reason % 4) % 4 + 4 * rng.pick(&[0, 0, 0, 1]);
            Content::Bye {
                sources,
                reason: Some(text(rng, reason)),
                tail: bytes(rng, tail),
            }
        }
        Some(Kind::App) => {
            let data = 4 * rng.below(6);
            let name = if rng.once_in(2) {
                text(rng, 4)
            } else {
                bytes(rng, 4)
            };
            Content::App {
                subtype: rng.below(32) as u8,
                ssrc: word(rng),
                name: [name[0], name[1], name[2], name[3]],
                data: bytes(rng, data),
            }
        }
        None => {
            let body = 4 * rng.below(5);
            Content::Unknown {
                packet_type: rng.pick(&[0, 192, 195, 199, 205, 206, 207, 255]),
                low: rng.below(32) as u8,
                body: bytes(rng, body),
            }
        }
    }
}

pub fn packet(rng: &mut Rng, kind: Option<Kind>) -> Packet {
    Packet {
        content: content(rng, kind),
        padding: padding(rng),
    }
}
