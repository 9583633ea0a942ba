//! "Reading one packet".

use crate::packet::*;
use crate::refusal::{Answer, Refusal};

fn number(bytes: &[u8]) -> u64 {
    bytes
        .iter()
        .fold(0, |sum, byte| sum * 256 + u64::from(*byte))
}

fn word(bytes: &[u8], at: usize) -> u32 {
    number(&bytes[at..at + 4]) as u32
}

pub(crate) fn version(first: u8) -> u8 {
    first / 64
}

pub(crate) fn has_p(first: u8) -> bool {
    first & 0x20 != 0
}

fn low_bits(first: u8) -> u8 {
    first % 32
}

/// The first boundary strictly above `at`.
fn boundary_above(at: usize) -> usize {
    (at / 4 + 1) * 4
}

/// The stated length L. The slice has at least 4 bytes.
pub(crate) fn stated_length(bytes: &[u8]) -> usize {
    4 * (number(&bytes[2..4]) as usize + 1)
}

/// The padding count of a packet of full stated length.
fn padding_count(bytes: &[u8], least: usize) -> Answer<usize> {
    if !has_p(bytes[0]) {
        return Ok(0);
    }
    let count = usize::from(bytes[bytes.len() - 1]);
    if count == 0 || !count.is_multiple_of(4) || count > bytes.len() - least {
        return Err(Refusal::INVALID_PADDING_READ);
    }
    Ok(count)
}

/// The header steps before the padding's.
pub fn check_header(kind: Kind, bytes: &[u8]) -> Answer<()> {
    let len = bytes.len();
    if len < kind.least() {
        return Err(Refusal::truncated(kind.least(), len));
    }
    if version(bytes[0]) != 2 {
        return Err(Refusal::unsupported_version(version(bytes[0])));
    }
    if bytes[1] != kind.packet_type() {
        return Err(Refusal::type_mismatch(bytes[1], kind.packet_type()));
    }
    let stated = stated_length(bytes);
    if stated > len {
        return Err(Refusal::truncated(stated, len));
    }
    if stated < len {
        return Err(Refusal::too_large(stated, len));
    }
    Ok(())
}

/// One packet of the given kind, which takes up all of the bytes.
pub fn read_as(kind: Kind, bytes: &[u8]) -> Answer<Packet> {
    check_header(kind, bytes)?;
    let padding = padding_count(bytes, kind.least())?;
    let (body, padding) = bytes.split_at(bytes.len() - padding);
    let content = match kind {
        Kind::Sr | Kind::Rr => report(kind, body)?,
        Kind::Sdes => sdes(body)?,
        Kind::Bye => bye(body)?,
        Kind::App => app(body),
    };
    Ok(Packet {
        content,
        padding: padding.to_vec(),
    })
}

/// A packet of a type outside 200 to 204, whose stated length is all of the bytes.
pub(crate) fn read_unknown(bytes: &[u8]) -> Answer<Packet> {
    let padding = padding_count(bytes, 4)?;
    let (body, padding) = bytes.split_at(bytes.len() - padding);
    Ok(Packet {
        content: Content::Unknown {
            packet_type: bytes[1],
            low: low_bits(bytes[0]),
            body: body[4..].to_vec(),
        },
        padding: padding.to_vec(),
    })
}

fn report(kind: Kind, body: &[u8]) -> Answer<Content> {
    let count = usize::from(low_bits(body[0]));
    let end = kind.least() + 24 * count;
    if body.len() < end {
        return Err(Refusal::truncated(end, body.len()));
    }
    let sender = (kind == Kind::Sr).then(|| SenderInfo {
        ntp_time: number(&body[8..16]),
        rtp_time: word(body, 16),
        packet_count: word(body, 20),
        octet_count: word(body, 24),
    });
    Ok(Content::Report {
        ssrc: word(body, 4),
        sender,
        blocks: body[kind.least()..end].chunks(24).map(block).collect(),
        extension: body[end..].to_vec(),
    })
}

fn block(bytes: &[u8]) -> Block {
    Block {
        ssrc: word(bytes, 0),
        fraction_lost: bytes[4],
        cumulative_lost: signed(number(&bytes[5..8])),
        extended_sequence: word(bytes, 8),
        jitter: word(bytes, 12),
        last_sr: word(bytes, 16),
        delay: word(bytes, 20),
    }
}

/// The number from -8,388,608 to 8,388,607 whose value modulo 16,777,216 is the 24
/// bits.
fn signed(bits: u64) -> i32 {
    let value = bits as i32;
    if value > LOSS_MOST {
        value - 16_777_216
    } else {
        value
    }
}

/// A lone block.
pub fn read_block(bytes: &[u8]) -> Answer<Block> {
    match bytes.len() {
        len if len < 24 => Err(Refusal::truncated(24, len)),
        len if len > 24 => Err(Refusal::too_large(24, len)),
        _ => Ok(block(bytes)),
    }
}

/// The block of that index, from 0, of an SR or RR.
pub fn read_block_at(kind: Kind, bytes: &[u8], index: u64) -> Answer<Block> {
    match read_as(kind, bytes)?.content {
        Content::Report { blocks, .. } => at_index(&blocks, index),
        _ => Err(Refusal::NOTHING_LEFT),
    }
}

/// The SSRC of that index, from 0, of a BYE.
pub fn read_source_at(bytes: &[u8], index: u64) -> Answer<u32> {
    match read_as(Kind::Bye, bytes)?.content {
        Content::Bye { sources, .. } => at_index(&sources, index),
        _ => Err(Refusal::NOTHING_LEFT),
    }
}

fn at_index<T: Copy>(list: &[T], index: u64) -> Answer<T> {
    usize::try_from(index)
        .ok()
        .and_then(|index| list.get(index).copied())
        .ok_or(Refusal::NOTHING_LEFT)
}

fn sdes(body: &[u8]) -> Answer<Content> {
    let mut chunks = Vec::new();
    let mut used = 4;
    for _ in 0..low_bits(body[0]) {
        let (chunk, occupied) = read_chunk(&body[used..])?;
        chunks.push(chunk);
        used += occupied;
    }
    if used < body.len() {
        return Err(Refusal::too_large(used, body.len()));
    }
    Ok(Content::Sdes { chunks })
}

/// The chunk at the start of the bytes, and the number of bytes it occupies.
pub fn read_chunk(bytes: &[u8]) -> Answer<(Chunk, usize)> {
    if bytes.len() < 4 {
        return Err(Refusal::truncated(4, bytes.len()));
    }
    let mut items = Vec::new();
    let mut at = 4;
    while at < bytes.len() && bytes[at] != 0 {
        let (item, occupied) = read_item(&bytes[at..])?;
        items.push(item);
        at += occupied;
    }
    let end = closing_zeros(bytes, at)?;
    Ok((
        Chunk {
            ssrc: word(bytes, 0),
            items,
        },
        end,
    ))
}

/// The end of the zeros that close a chunk: the boundary above `from`.
fn closing_zeros(bytes: &[u8], from: usize) -> Answer<usize> {
    let boundary = boundary_above(from);
    for at in from..boundary {
        // Both faults name the same boundary: it is the next one above `at`.
        if at >= bytes.len() || bytes[at] != 0 {
            return Err(Refusal::truncated(boundary, at));
        }
    }
    Ok(boundary)
}

/// The item at the start of the bytes, and the number of bytes it occupies.
pub fn read_item(bytes: &[u8]) -> Answer<(Item, usize)> {
    let left = bytes.len();
    if left < 2 {
        return Err(Refusal::truncated(4, left));
    }
    let (item_type, length) = (bytes[0], usize::from(bytes[1]));
    let end = 2 + length;
    if end > left {
        return Err(Refusal::truncated(end, left));
    }
    let (prefix, value) = match item_type {
        PRIV => split_priv(&bytes[2..end])?,
        _ => (&[][..], &bytes[2..end]),
    };
    let item = Item {
        item_type,
        prefix: prefix.to_vec(),
        value: value.to_vec(),
    };
    Ok((item, end))
}

/// The prefix and the value of what follows a PRIV item's length.
fn split_priv(rest: &[u8]) -> Answer<(&[u8], &[u8])> {
    let Some((prefix, available)) = rest.split_first() else {
        return Err(Refusal::truncated(3, 2));
    };
    let prefix = usize::from(*prefix);
    if prefix > available.len() {
        return Err(Refusal::prefix_past_item(prefix, available.len()));
    }
    Ok(available.split_at(prefix))
}

/// The prefix of a lone item.
pub fn read_prefix(bytes: &[u8]) -> Answer<Vec<u8>> {
    let (item, _) = read_item(bytes)?;
    if item.item_type != PRIV {
        return Err(Refusal::not_priv(item.item_type));
    }
    Ok(item.prefix)
}

fn bye(body: &[u8]) -> Answer<Content> {
    let sources_end = 4 + 4 * usize::from(low_bits(body[0]));
    if body.len() < sources_end {
        return Err(Refusal::truncated(sources_end, body.len()));
    }
    let sources = body[4..sources_end]
        .chunks(4)
        .map(|bytes| word(bytes, 0))
        .collect();
    if body.len() == sources_end {
        return Ok(Content::Bye {
            sources,
            reason: None,
            tail: Vec::new(),
        });
    }
    let reason_start = sources_end + 1;
    let reason_end = reason_start + usize::from(body[sources_end]);
    if reason_end > body.len() {
        return Err(Refusal::truncated(reason_end, body.len()));
    }
    Ok(Content::Bye {
        sources,
        reason: Some(body[reason_start..reason_end].to_vec()),
        tail: body[reason_end..].to_vec(),
    })
}

fn app(body: &[u8]) -> Content {
    Content::App {
        subtype: low_bits(body[0]),
        ssrc: word(body, 4),
        name: [body[8], body[9], body[10], body[11]],
        data: body[12..].to_vec(),
    }
}
