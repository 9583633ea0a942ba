//! "Writing one packet".

use crate::packet::*;
use crate::refusal::{Answer, Refusal};

pub const PACKET_LIMIT: usize = 262_144;
pub const CHUNK_LIMIT: usize = 262_140;

/// The blocks of a report, lent as lists: of each a fraction lost, a cumulative
/// lost, and its five other words in the order of the wire.
#[derive(Clone, Debug, Default, PartialEq, Eq, Hash)]
pub struct BlockLists {
    pub fractions: Vec<u8>,
    pub losses: Vec<i32>,
    pub words: Vec<u32>,
}

/// The items of an SDES packet or of a lone chunk, lent as flat lists.
#[derive(Clone, Debug, Default, PartialEq, Eq, Hash)]
pub struct ItemLists {
    pub types: Vec<u8>,
    pub prefix_lengths: Vec<u64>,
    pub value_lengths: Vec<u64>,
    pub bytes: Vec<u8>,
}

#[derive(Clone, Debug, Default, PartialEq, Eq, Hash)]
pub struct SdesLists {
    pub ssrcs: Vec<u32>,
    pub counts: Vec<u64>,
    pub items: ItemLists,
}

#[derive(Clone, Debug, Default, PartialEq, Eq, Hash)]
pub struct ChunkLists {
    pub ssrc: u32,
    pub items: ItemLists,
}

/// The arguments of a writing call.
#[derive(Clone, Debug, PartialEq, Eq, Hash)]
pub enum Given {
    Report {
        ssrc: u32,
        sender: Option<SenderInfo>,
        blocks: BlockLists,
        padding: u64,
    },
    Sdes {
        lists: SdesLists,
        padding: u64,
    },
    Bye {
        sources: Vec<u32>,
        reason: Vec<u8>,
        padding: u64,
    },
    App {
        subtype: u64,
        ssrc: u32,
        name: Vec<u8>,
        data: Vec<u8>,
        padding: u64,
    },
}

impl Given {
    pub fn kind(&self) -> Kind {
        match self {
            Given::Report {
                sender: Some(_), ..
            } => Kind::Sr,
            Given::Report { sender: None, .. } => Kind::Rr,
            Given::Sdes { .. } => Kind::Sdes,
            Given::Bye { .. } => Kind::Bye,
            Given::App { .. } => Kind::App,
        }
    }

    pub fn padding(&self) -> u64 {
        match self {
            Given::Report { padding, .. }
            | Given::Sdes { padding, .. }
            | Given::Bye { padding, .. }
            | Given::App { padding, .. } => *padding,
        }
    }
}

/// Writes one packet to the start of the buffer. The answer is its size.
pub fn write(given: &Given, buffer: &mut [u8]) -> Answer<u64> {
    put(&packet_bytes(given)?, buffer)
}

/// Writes a lone chunk to the start of the buffer. The answer is its size.
pub fn write_chunk(chunk: &ChunkLists, buffer: &mut [u8]) -> Answer<u64> {
    put(&lone_chunk_bytes(chunk)?, buffer)
}

/// Writes a lone item to the start of the buffer. The answer is its size.
pub fn write_item(item: &Item, buffer: &mut [u8]) -> Answer<u64> {
    put(&lone_item_bytes(item)?, buffer)
}

/// The size of what `write` writes: the order without 10.
pub fn size(given: &Given) -> Answer<u64> {
    Ok(packet_bytes(given)?.len() as u64)
}

pub fn size_of_chunk(chunk: &ChunkLists) -> Answer<u64> {
    Ok(lone_chunk_bytes(chunk)?.len() as u64)
}

pub fn size_of_item(item: &Item) -> Answer<u64> {
    Ok(lone_item_bytes(item)?.len() as u64)
}

fn lone_chunk_bytes(chunk: &ChunkLists) -> Answer<Vec<u8>> {
    let items = chunk.items.split()?;
    check_items(&items)?;
    let bytes = chunk_bytes(chunk.ssrc, &items);
    if bytes.len() > CHUNK_LIMIT {
        return Err(Refusal::OVERSIZED);
    }
    Ok(bytes)
}

fn lone_item_bytes(item: &Item) -> Answer<Vec<u8>> {
    check_item(item)?;
    Ok(item_bytes(item))
}

fn put(bytes: &[u8], buffer: &mut [u8]) -> Answer<u64> {
    if buffer.len() < bytes.len() {
        return Err(Refusal::output_too_small(bytes.len() as u64));
    }
    buffer[..bytes.len()].copy_from_slice(bytes);
    Ok(bytes.len() as u64)
}

/// The bytes of a packet, where its own order up to 22 refuses nothing.
pub(crate) fn packet_bytes(given: &Given) -> Answer<Vec<u8>> {
    let mut bytes = vec![0; 4];
    let low = match given {
        Given::Report {
            ssrc,
            sender,
            blocks,
            padding,
        } => {
            let blocks = check_report(blocks, *padding)?;
            put_report(&mut bytes, *ssrc, sender.as_ref(), &blocks);
            blocks.len()
        }
        Given::Sdes { lists, padding } => {
            let chunks = check_sdes(lists, *padding)?;
            for (ssrc, items) in &chunks {
                bytes.extend(chunk_bytes(*ssrc, items));
            }
            chunks.len()
        }
        Given::Bye {
            sources,
            reason,
            padding,
        } => {
            check_bye(sources, reason, *padding)?;
            put_bye(&mut bytes, sources, reason);
            sources.len()
        }
        Given::App {
            subtype,
            ssrc,
            name,
            data,
            padding,
        } => {
            check_app(*subtype, name, data, *padding)?;
            put_app(&mut bytes, *ssrc, name, data);
            *subtype as usize
        }
    };
    put_padding(&mut bytes, given.padding());
    if bytes.len() > PACKET_LIMIT {
        return Err(Refusal::OVERSIZED);
    }
    put_header(&mut bytes, given, low);
    Ok(bytes)
}

fn put_header(bytes: &mut [u8], given: &Given, low: usize) {
    let p = if given.padding() == 0 { 0 } else { 0x20 };
    let words = bytes.len() / 4 - 1;
    bytes[0] = 0x80 + p + low as u8;
    bytes[1] = given.kind().packet_type();
    bytes[2] = (words / 256) as u8;
    bytes[3] = (words % 256) as u8;
}

fn put_padding(bytes: &mut Vec<u8>, padding: u64) {
    if padding > 0 {
        bytes.resize(bytes.len() + padding as usize - 1, 0);
        bytes.push(padding as u8);
    }
}

fn put_zeros_to_boundary(bytes: &mut Vec<u8>) {
    bytes.resize(bytes.len().next_multiple_of(4), 0);
}

fn check_padding(padding: u64) -> Answer<()> {
    if !padding.is_multiple_of(4) || padding > 252 {
        return Err(Refusal::invalid_padding(padding));
    }
    Ok(())
}

fn check_report(lists: &BlockLists, padding: u64) -> Answer<Vec<Block>> {
    let blocks = lists.split()?;
    if blocks.len() > 31 {
        return Err(Refusal::too_many_blocks(blocks.len()));
    }
    check_padding(padding)?;
    for block in &blocks {
        if block.cumulative_lost < LOSS_LEAST || block.cumulative_lost > LOSS_MOST {
            return Err(Refusal::loss_too_large(block.cumulative_lost));
        }
    }
    Ok(blocks)
}

fn put_report(bytes: &mut Vec<u8>, ssrc: u32, sender: Option<&SenderInfo>, blocks: &[Block]) {
    bytes.extend(ssrc.to_be_bytes());
    if let Some(sender) = sender {
        bytes.extend(sender.ntp_time.to_be_bytes());
        bytes.extend(sender.rtp_time.to_be_bytes());
        bytes.extend(sender.packet_count.to_be_bytes());
        bytes.extend(sender.octet_count.to_be_bytes());
    }
    for block in blocks {
        bytes.extend(block.ssrc.to_be_bytes());
        bytes.push(block.fraction_lost);
        let bits = block.cumulative_lost.rem_euclid(16_777_216);
        bytes.extend(&bits.to_be_bytes()[1..]);
        bytes.extend(block.extended_sequence.to_be_bytes());
        bytes.extend(block.jitter.to_be_bytes());
        bytes.extend(block.last_sr.to_be_bytes());
        bytes.extend(block.delay.to_be_bytes());
    }
}

fn sum(numbers: &[u64]) -> u128 {
    numbers.iter().map(|number| u128::from(*number)).sum()
}

impl ItemLists {
    pub fn of(items: &[Item]) -> ItemLists {
        ItemLists {
            types: items.iter().map(|item| item.item_type).collect(),
            prefix_lengths: items.iter().map(|item| item.prefix.len() as u64).collect(),
            value_lengths: items.iter().map(|item| item.value.len() as u64).collect(),
            bytes: items
                .iter()
                .flat_map(|item| [&item.prefix[..], &item.value].concat())
                .collect(),
        }
    }
}

impl BlockLists {
    pub fn of(blocks: &[Block]) -> BlockLists {
        BlockLists {
            fractions: blocks.iter().map(|block| block.fraction_lost).collect(),
            losses: blocks.iter().map(|block| block.cumulative_lost).collect(),
            words: blocks.iter().flat_map(Block::words).collect(),
        }
    }

    /// The blocks one by one, or 24.
    pub fn split(&self) -> Answer<Vec<Block>> {
        let count = self.fractions.len();
        if self.losses.len() != count || self.words.len() != 5 * count {
            return Err(Refusal::LISTS_DISAGREE);
        }
        Ok((0..count)
            .map(|i| Block {
                ssrc: self.words[5 * i],
                fraction_lost: self.fractions[i],
                cumulative_lost: self.losses[i],
                extended_sequence: self.words[5 * i + 1],
                jitter: self.words[5 * i + 2],
                last_sr: self.words[5 * i + 3],
                delay: self.words[5 * i + 4],
            })
            .collect())
    }
}

impl ItemLists {
    /// The items one by one, or 24.
    pub fn split(&self) -> Answer<Vec<Item>> {
        let count = self.types.len();
        if self.prefix_lengths.len() != count
            || self.value_lengths.len() != count
            || sum(&self.prefix_lengths) + sum(&self.value_lengths) != self.bytes.len() as u128
        {
            return Err(Refusal::LISTS_DISAGREE);
        }
        let mut rest = self.bytes.as_slice();
        let mut take = |length: u64| {
            let (part, after) = rest.split_at(length as usize);
            rest = after;
            part.to_vec()
        };
        Ok((0..count)
            .map(|i| Item {
                item_type: self.types[i],
                prefix: take(self.prefix_lengths[i]),
                value: take(self.value_lengths[i]),
            })
            .collect())
    }
}

impl SdesLists {
    /// The chunks one by one, or 24.
    pub fn split(&self) -> Answer<Vec<(u32, Vec<Item>)>> {
        if self.ssrcs.len() != self.counts.len()
            || sum(&self.counts) != self.items.types.len() as u128
        {
            return Err(Refusal::LISTS_DISAGREE);
        }
        let mut items = self.items.split()?.into_iter();
        Ok(self
            .ssrcs
            .iter()
            .zip(&self.counts)
            .map(|(ssrc, count)| (*ssrc, items.by_ref().take(*count as usize).collect()))
            .collect())
    }
}

fn check_sdes(lists: &SdesLists, padding: u64) -> Answer<Vec<(u32, Vec<Item>)>> {
    let chunks = lists.split()?;
    if chunks.len() > 31 {
        return Err(Refusal::too_many_chunks(chunks.len()));
    }
    check_padding(padding)?;
    for (_, items) in &chunks {
        check_items(items)?;
    }
    Ok(chunks)
}

fn check_items(items: &[Item]) -> Answer<()> {
    items.iter().try_for_each(check_item)
}

fn check_item(item: &Item) -> Answer<()> {
    if item.item_type == 0 {
        return Err(Refusal::ITEM_TYPE_ZERO);
    }
    let mut max = 255;
    if item.item_type == PRIV {
        if item.prefix.len() > 254 {
            return Err(Refusal::prefix_too_large(item.prefix.len()));
        }
        max = 254 - item.prefix.len();
    }
    if item.value.len() > max {
        return Err(Refusal::value_too_large(item.value.len(), max));
    }
    Ok(())
}

fn chunk_bytes(ssrc: u32, items: &[Item]) -> Vec<u8> {
    let mut bytes = ssrc.to_be_bytes().to_vec();
    for item in items {
        bytes.extend(item_bytes(item));
    }
    bytes.push(0);
    put_zeros_to_boundary(&mut bytes);
    bytes
}

fn item_bytes(item: &Item) -> Vec<u8> {
    let mut rest = Vec::new();
    if item.item_type == PRIV {
        rest.push(item.prefix.len() as u8);
        rest.extend(&item.prefix);
    }
    rest.extend(&item.value);
    let mut bytes = vec![item.item_type, rest.len() as u8];
    bytes.extend(rest);
    bytes
}

fn check_bye(sources: &[u32], reason: &[u8], padding: u64) -> Answer<()> {
    if sources.len() > 31 {
        return Err(Refusal::too_many_sources(sources.len()));
    }
    check_padding(padding)?;
    if reason.len() > 255 {
        return Err(Refusal::reason_too_large(reason.len()));
    }
    Ok(())
}

fn put_bye(bytes: &mut Vec<u8>, sources: &[u32], reason: &[u8]) {
    for source in sources {
        bytes.extend(source.to_be_bytes());
    }
    if !reason.is_empty() {
        bytes.push(reason.len() as u8);
        bytes.extend(reason);
        put_zeros_to_boundary(bytes);
    }
}

fn check_app(subtype: u64, name: &[u8], data: &[u8], padding: u64) -> Answer<()> {
    if subtype > 31 {
        return Err(Refusal::subtype_out_of_range(subtype));
    }
    if name.len() > 4 || name.iter().any(|byte| *byte > 127) {
        return Err(Refusal::INVALID_NAME);
    }
    if !data.len().is_multiple_of(4) {
        return Err(Refusal::data_no_words(data.len()));
    }
    check_padding(padding)
}

fn put_app(bytes: &mut Vec<u8>, ssrc: u32, name: &[u8], data: &[u8]) {
    bytes.extend(ssrc.to_be_bytes());
    bytes.extend(name);
    bytes.resize(12, 0);
    bytes.extend(data);
}
