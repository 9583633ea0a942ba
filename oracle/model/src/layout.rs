//! The layout: the bytes of a packet.

use crate::packet::*;

/// The bytes of a packet that is full words and whose fields fit.
pub fn layout(packet: &Packet) -> Vec<u8> {
    let fields = fields(&packet.content);
    let length = 4 + fields.len() + packet.padding.len();
    let p = !packet.padding.is_empty();
    let mut bytes = vec![
        2 << 6 | u8::from(p) << 5 | packet.low_bits() as u8,
        packet.packet_type(),
        ((length / 4 - 1) >> 8) as u8,
        (length / 4 - 1) as u8,
    ];
    bytes.extend(fields);
    bytes.extend(&packet.padding);
    bytes
}

fn fields(content: &Content) -> Vec<u8> {
    match content {
        Content::Report {
            ssrc,
            sender,
            blocks,
            extension,
        } => {
            let mut bytes = ssrc.to_be_bytes().to_vec();
            bytes.extend(sender.iter().flat_map(layout_sender));
            bytes.extend(blocks.iter().flat_map(layout_block));
            bytes.extend(extension);
            bytes
        }
        Content::Sdes { chunks } => chunks.iter().flat_map(layout_chunk).collect(),
        Content::Bye {
            sources,
            reason,
            tail,
        } => {
            let mut bytes = sources.iter().flat_map(|s| s.to_be_bytes()).collect();
            if let Some(reason) = reason {
                bytes = [bytes, vec![reason.len() as u8], reason.clone()].concat();
            }
            bytes.extend(tail);
            bytes
        }
        Content::App {
            ssrc, name, data, ..
        } => [&ssrc.to_be_bytes()[..], &name[..], &data[..]].concat(),
        Content::Unknown { body, .. } => body.clone(),
    }
}

fn layout_sender(sender: &SenderInfo) -> Vec<u8> {
    [
        &sender.ntp_time.to_be_bytes()[..],
        &sender.rtp_time.to_be_bytes(),
        &sender.packet_count.to_be_bytes(),
        &sender.octet_count.to_be_bytes(),
    ]
    .concat()
}

fn layout_block(block: &Block) -> Vec<u8> {
    [
        block.ssrc,
        u32::from(block.fraction_lost) << 24 | block.cumulative_lost as u32 & 0xFF_FFFF,
        block.extended_sequence,
        block.jitter,
        block.last_sr,
        block.delay,
    ]
    .iter()
    .flat_map(|word| word.to_be_bytes())
    .collect()
}

pub fn layout_chunk(chunk: &Chunk) -> Vec<u8> {
    let items: Vec<u8> = chunk.items.iter().flat_map(layout_item).collect();
    let zeros = 4 - items.len() % 4;
    [&chunk.ssrc.to_be_bytes()[..], &items, &[0; 4][..zeros]].concat()
}

pub fn layout_item(item: &Item) -> Vec<u8> {
    let prefix = match item.item_type {
        PRIV => [&[item.prefix.len() as u8], &item.prefix[..]].concat(),
        _ => Vec::new(),
    };
    let length = (prefix.len() + item.value.len()) as u8;
    [&[item.item_type, length], &prefix[..], &item.value].concat()
}
