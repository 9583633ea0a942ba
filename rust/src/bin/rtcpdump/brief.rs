//! A packet in one line.

use crate::datagram::Datagram;
use crate::fault::Fault;
use crate::fields::{item_name, short_name};
use crate::text::escaped;
use bokyjave::prelude::*;
use bokyjave::{Bye, Packet, ReportBlock, Sdes};

/// What each line of a datagram starts with.
pub fn start(datagram: &Datagram) -> String {
    let mut text = datagram.number.to_string();
    if let Some(time) = datagram.from.time {
        text += &format!(" {time}");
    }
    if let Some((source, destination)) = datagram.from.addresses {
        text += &format!(" {source} > {destination}");
    } else if !datagram.from.label.is_empty() {
        text += &format!(" {}", datagram.from.label);
    }
    text
}

pub fn packet(packet: &Packet) -> String {
    let name = short_name(packet);
    match packet {
        Packet::Sr(sr) => format!(
            "{name} {:08x}, packets {}, octets {}{}",
            sr.ssrc(),
            sr.packet_count(),
            sr.octet_count(),
            blocks(sr.report_blocks())
        ),
        Packet::Rr(rr) => format!("{name} {:08x}{}", rr.ssrc(), blocks(rr.report_blocks())),
        Packet::Sdes(sdes) => format!("{name}{}", chunks(sdes)),
        Packet::Bye(bye) => format!("{name}{}", goodbye(bye)),
        Packet::App(app) => format!(
            "{name} {:08x}, name \"{}\", subtype {}, {} bytes",
            app.ssrc(),
            escaped(&app.name()),
            app.subtype(),
            app.data().len()
        ),
        Packet::Unknown(other) => {
            let (type_, bits) = (other.type_(), other.count());
            let len = other.body().len();
            format!("type {type_}, low 5 bits {bits}, {len} bytes")
        }
    }
}

fn blocks(blocks: impl Iterator<Item = ReportBlock>) -> String {
    let block = |block: ReportBlock| {
        format!(
            ", about {:08x}: fraction {}/256, lost {}, jitter {}",
            block.ssrc(),
            block.fraction_lost(),
            block.cumulative_lost(),
            block.interarrival_jitter()
        )
    };
    blocks.map(block).collect()
}

fn chunks(sdes: &Sdes) -> String {
    let mut text = String::new();
    for chunk in sdes.chunks() {
        text += &format!(" {:08x}", chunk.ssrc());
        for item in chunk.items() {
            let value = escaped(item.value());
            text += &match item_name(item.type_()) {
                Some(name) => format!(" {name} \"{value}\""),
                None => format!(" item {} \"{value}\"", item.type_()),
            };
        }
    }
    text
}

fn goodbye(bye: &Bye) -> String {
    let sources = bye.ssrcs().map(|ssrc| format!(" {ssrc:08x}"));
    let text: String = sources.collect();
    match bye.reason() {
        Some(reason) => format!("{text}, reason \"{}\"", escaped(reason)),
        None => text,
    }
}

pub fn refusal(fault: &Fault) -> String {
    let (text, details) = (fault.text, fault.details());
    match &fault.packet {
        Some(failed) => {
            let (number, offset) = (failed.number, failed.offset + failed.at);
            format!("refused: {text} {details}, packet {number}, offset {offset}")
        }
        None => format!("refused: {text} {details}"),
    }
}
