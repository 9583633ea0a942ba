//! Short forms for the tests.
#![allow(dead_code)]

use model::*;

pub fn hex(text: &str) -> Vec<u8> {
    text.split_whitespace()
        .map(|byte| u8::from_str_radix(byte, 16).expect("hexadecimal"))
        .collect()
}

pub fn refused<T>(number: u8, first: u64, second: u64) -> Answer<T> {
    Err(Refusal::new(number, first, second))
}

pub fn plain(content: Content) -> Packet {
    Packet {
        content,
        padding: Vec::new(),
    }
}

pub fn item(item_type: u8, value: &[u8]) -> Item {
    Item {
        item_type,
        prefix: Vec::new(),
        value: value.to_vec(),
    }
}

pub fn private(prefix: &[u8], value: &[u8]) -> Item {
    Item {
        item_type: PRIV,
        prefix: prefix.to_vec(),
        value: value.to_vec(),
    }
}

pub fn sdes(chunks: Vec<Chunk>) -> Content {
    Content::Sdes { chunks }
}

pub fn rr(ssrc: u32) -> Content {
    Content::Report {
        ssrc,
        sender: None,
        blocks: Vec::new(),
        extension: Vec::new(),
    }
}

pub fn give_rr(blocks: Vec<Block>, padding: u64) -> Given {
    Given::Report {
        ssrc: 0x1122_3344,
        sender: None,
        blocks: BlockLists::of(&blocks),
        padding,
    }
}

/// An SDES of one chunk.
pub fn give_sdes(items: &[Item], padding: u64) -> Given {
    Given::Sdes {
        lists: SdesLists {
            ssrcs: vec![0x1122_3344],
            counts: vec![items.len() as u64],
            items: ItemLists::of(items),
        },
        padding,
    }
}

pub fn give_bye(sources: usize, reason: &[u8], padding: u64) -> Given {
    Given::Bye {
        sources: vec![0x1122_3344; sources],
        reason: reason.to_vec(),
        padding,
    }
}

pub fn give_app(subtype: u64, name: &[u8], data: usize, padding: u64) -> Given {
    Given::App {
        subtype,
        ssrc: 1,
        name: name.to_vec(),
        data: vec![0xDA; data],
        padding,
    }
}

pub fn written(given: &Given) -> Answer<Vec<u8>> {
    let mut buffer = vec![0x5A; size(given)? as usize];
    write(given, &mut buffer)?;
    Ok(buffer)
}
