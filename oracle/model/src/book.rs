//! The book (docs/PROTOCOL.md): what a list of writer calls is held against.
//!
//! It keeps packets where the writer keeps a length and three flags, and takes
//! sizes from the layout where the writer takes them from its bytes.

use crate::layout::layout;
use crate::packet::*;
use crate::refusal::{Answer, Refusal};
use crate::write::{Given, PACKET_LIMIT};

/// A call without the writer and the buffer; an add has the buffer's length.
#[derive(Clone, Debug, PartialEq, Eq, Hash)]
pub enum Call {
    Add { given: Given, buffer: u64 },
    Close,
}

#[derive(Clone, Debug, Default, PartialEq, Eq, Hash)]
pub struct Book {
    pub packets: Vec<Packet>,
    pub closed: bool,
}

impl Book {
    pub fn turn(&mut self, call: &Call) -> Answer<()> {
        if self.closed {
            return Err(Refusal::CLOSED);
        }
        match call {
            Call::Add { given, buffer } => {
                let packet = self.admit(given, *buffer)?;
                self.packets.push(packet);
            }
            Call::Close => {
                if !self.packets.iter().any(Packet::has_cname) {
                    return Err(Refusal::WRITER_NEEDS_CNAME);
                }
                self.closed = true;
            }
        }
        Ok(())
    }

    fn admit(&self, given: &Given, buffer: u64) -> Answer<Packet> {
        match self.packets.last() {
            Some(last) if !last.padding.is_empty() => return Err(Refusal::ALREADY_PADDED),
            None if !matches!(given, Given::Report { .. }) => {
                return Err(Refusal::WRITER_NEEDS_REPORT)
            }
            _ => {}
        }
        if let Some(fault) = faults(given).into_iter().next() {
            return Err(fault);
        }
        let packet = written_packet(given);
        let size = layout(&packet).len();
        if size > PACKET_LIMIT {
            return Err(Refusal::OVERSIZED);
        }
        let so_far: u64 = self.packets.iter().map(|p| layout(p).len() as u64).sum();
        if buffer < so_far {
            return Err(Refusal::output_too_small(so_far));
        }
        if buffer < so_far + size as u64 {
            return Err(Refusal::output_too_small(so_far + size as u64));
        }
        Ok(packet)
    }
}

/// Every fault of the arguments, in the packet's own order, before 22 and 10.
fn faults(given: &Given) -> Vec<Refusal> {
    let mut faults = Vec::new();
    let mut fault = |holds: bool, refusal: Refusal| {
        if holds {
            faults.push(refusal);
        }
    };
    let padding = given.padding();
    let padding_holds = !(0..=252).step_by(4).any(|fine: u64| fine == padding);
    let bad_padding = Refusal::invalid_padding(padding);
    match given {
        Given::Report { blocks, .. } => {
            let count = blocks.fractions.len();
            let disagree = (blocks.losses.len(), blocks.words.len()) != (count, 5 * count);
            fault(disagree, Refusal::LISTS_DISAGREE);
            fault(count > 31, Refusal::too_many_blocks(count));
            fault(padding_holds, bad_padding);
            for lost in &blocks.losses {
                let fits = (-(1 << 23)..1 << 23).contains(lost);
                fault(!fits, Refusal::loss_too_large(*lost));
            }
        }
        Given::Sdes { lists, .. } => match lists.split() {
            Err(disagree) => fault(true, disagree),
            Ok(chunks) => {
                fault(chunks.len() > 31, Refusal::too_many_chunks(chunks.len()));
                fault(padding_holds, bad_padding);
                for item in chunks.iter().flat_map(|(_, items)| items) {
                    let (prefix, value) = (item.prefix.len(), item.value.len());
                    let is_priv = item.item_type == PRIV;
                    let max = if is_priv {
                        254usize.saturating_sub(prefix)
                    } else {
                        255
                    };
                    fault(item.item_type == 0, Refusal::ITEM_TYPE_ZERO);
                    fault(is_priv && prefix > 254, Refusal::prefix_too_large(prefix));
                    fault(value > max, Refusal::value_too_large(value, max));
                }
            }
        },
        Given::Bye {
            sources, reason, ..
        } => {
            fault(sources.len() > 31, Refusal::too_many_sources(sources.len()));
            fault(padding_holds, bad_padding);
            fault(reason.len() > 255, Refusal::reason_too_large(reason.len()));
        }
        Given::App {
            subtype,
            name,
            data,
            ..
        } => {
            fault(*subtype >= 32, Refusal::subtype_out_of_range(*subtype));
            fault(name.len() > 4 || !name.is_ascii(), Refusal::INVALID_NAME);
            fault(data.len() & 3 != 0, Refusal::data_no_words(data.len()));
            fault(padding_holds, bad_padding);
        }
    }
    faults
}

/// The packet as given, with a short APP name filled up with zeros, no empty
/// reason and a prefix on PRIV only; no extension, a tail only of the zeros after
/// a written reason, and padding zero but the count.
pub fn written_packet(given: &Given) -> Packet {
    let content = match given {
        Given::Report {
            ssrc,
            sender,
            blocks,
            ..
        } => Content::Report {
            ssrc: *ssrc,
            sender: *sender,
            blocks: blocks.split().expect("the lists agree"),
            extension: Vec::new(),
        },
        Given::Sdes { lists, .. } => Content::Sdes {
            chunks: lists
                .split()
                .expect("the lists agree")
                .into_iter()
                .map(|(ssrc, items)| Chunk {
                    ssrc,
                    items: items.into_iter().map(keep_priv_prefix).collect(),
                })
                .collect(),
        },
        Given::Bye {
            sources, reason, ..
        } => {
            let written = !reason.is_empty();
            let zeros = if written { 3 - reason.len() % 4 } else { 0 };
            Content::Bye {
                sources: sources.clone(),
                reason: written.then(|| reason.clone()),
                tail: vec![0; zeros],
            }
        }
        Given::App {
            subtype,
            ssrc,
            name,
            data,
            ..
        } => {
            let mut filled = [0; 4];
            filled[..name.len()].copy_from_slice(name);
            Content::App {
                subtype: *subtype as u8,
                ssrc: *ssrc,
                name: filled,
                data: data.clone(),
            }
        }
    };
    let mut padding = vec![0; given.padding() as usize];
    if let Some(count) = padding.last_mut() {
        *count = given.padding() as u8;
    }
    Packet { content, padding }
}

fn keep_priv_prefix(item: Item) -> Item {
    match item.item_type {
        PRIV => item,
        _ => Item {
            prefix: Vec::new(),
            ..item
        },
    }
}
