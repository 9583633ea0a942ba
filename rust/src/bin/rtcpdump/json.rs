//! A datagram, a damaged place and the summary as JSON, one object a line.
//! docs/RTCPDUMP.md describes the fields.

use crate::datagram::{Datagram, Origin, Place};
use crate::fault::Fault;
use crate::fields::{item_name, short_name};
use crate::text::hex;
use bokyjave::prelude::*;
use bokyjave::{App, Bye, Packet, ReportBlock, Sdes, SdesItem, SenderReport, Unknown};
use std::fmt::Display;

/// An object that is being written.
pub struct Object(String);

impl Object {
    /// An object of a line, and what it is.
    pub fn line(kind: &str) -> Self {
        Object::new().text("object", kind)
    }

    pub fn new() -> Self {
        Object("{".into())
    }

    /// A field whose value is JSON already: a number, an object, a list.
    pub fn field(mut self, name: &str, value: impl Display) -> Self {
        let comma = if self.0.len() > 1 { "," } else { "" };
        self.0 += &format!("{comma}\"{name}\":{value}");
        self
    }

    pub fn text(self, name: &str, text: &str) -> Self {
        let quoted = quoted(text);
        self.field(name, quoted)
    }

    pub fn maybe(self, name: &str, value: Option<impl Display>) -> Self {
        match value {
            Some(value) => self.field(name, value),
            None => self.field(name, "null"),
        }
    }

    pub fn ssrc(self, name: &str, ssrc: u32) -> Self {
        self.field(name, format!("\"{ssrc:08x}\""))
    }

    pub fn bytes(self, name: &str, bytes: &[u8]) -> Self {
        self.field(name, format!("\"{}\"", hex(bytes)))
    }

    /// Bytes that are meant as text: as text, with U+FFFD for what is none, and
    /// as hex.
    pub fn words(self, name: &str, bytes: &[u8]) -> Self {
        let text = String::from_utf8_lossy(bytes);
        let words = Object::new().text("text", &text).bytes("hex", bytes);
        self.field(name, words.end())
    }

    pub fn list(self, name: &str, values: impl Iterator<Item = String>) -> Self {
        let values: Vec<String> = values.collect();
        self.field(name, format!("[{}]", values.join(",")))
    }

    pub fn end(self) -> String {
        self.0 + "}"
    }
}

/// A text as JSON has it.
pub fn quoted(text: &str) -> String {
    let mut quoted = String::from("\"");
    for character in text.chars() {
        match character {
            '"' | '\\' => quoted.extend(['\\', character]),
            // Also the controls that are not ASCII, and the marks that turn a line around.
            '\0'..='\x1F'
            | '\x7F'..='\u{9F}'
            | '\u{200B}'..='\u{200F}'
            | '\u{2028}'..='\u{202E}' => {
                quoted += &format!("\\u{:04x}", u32::from(character));
            }
            _ => quoted.push(character),
        }
    }
    quoted + "\""
}

/// The line of a datagram that was read, or refused after these packets.
pub fn datagram(datagram: &Datagram, packets: &[Packet], fault: Option<&Fault>) -> String {
    let line = Object::line("datagram").field("number", datagram.number);
    let line = origin(line, datagram.from)
        .field("length", datagram.data.len())
        .list("packets", packets.iter().map(packet));
    match fault {
        None => line.field("refusal", "null").end(),
        Some(fault) => line
            .field("refusal", refusal(fault))
            .bytes("bytes", datagram.data)
            .end(),
    }
}

fn origin(line: Object, from: &Origin) -> Object {
    let line = line.text("file", from.file);
    let line = match from.place {
        Place::Whole => line,
        Place::Line(number) => line.field("line", number),
        Place::Record(number, at) => line.field("record", number).field("offset", at),
    };
    let line = match from.label.as_str() {
        "" => line,
        label => line.text("label", label),
    };
    let time = from.time.map(|time| quoted(&time.rfc3339()));
    let source = from.addresses.map(|it| quoted(&it.0.to_string()));
    let destination = from.addresses.map(|it| quoted(&it.1.to_string()));
    line.maybe("time", time)
        .maybe("source", source)
        .maybe("destination", destination)
}

fn refusal(fault: &Fault) -> String {
    let failed = fault.packet.as_ref();
    Object::new()
        .field("number", fault.error.number())
        .field("first", fault.error.first())
        .field("second", fault.error.second())
        .text("text", fault.text)
        .text("section", fault.rule.section)
        .text("sentence", fault.rule.sentence)
        .maybe("packet", failed.map(|it| it.number))
        .maybe("packet_offset", failed.map(|it| it.offset))
        .maybe("fault_offset", failed.map(|it| it.offset + it.at))
        .end()
}

fn packet(packet: &Packet) -> String {
    let object = Object::new()
        .text("kind", short_name(packet))
        .field("type", packet.type_())
        .field("count", packet.count())
        .field("length", packet.length());
    let object = match packet {
        Packet::Sr(sr) => sender_report(object, sr),
        Packet::Rr(rr) => object
            .ssrc("ssrc", rr.ssrc())
            .list("blocks", rr.report_blocks().map(block))
            .bytes("extension", rr.extension()),
        Packet::Sdes(sdes) => chunks(object, sdes),
        Packet::Bye(bye) => goodbye(object, bye),
        Packet::App(app) => application_defined(object, app),
        Packet::Unknown(unknown) => other(object, unknown),
    };
    object.bytes("padding", packet.padding_bytes()).end()
}

fn sender_report(object: Object, sr: &SenderReport) -> Object {
    object
        .ssrc("ssrc", sr.ssrc())
        .field("ntp_timestamp", format!("\"{:016x}\"", sr.ntp_timestamp()))
        .field("rtp_timestamp", sr.rtp_timestamp())
        .field("packet_count", sr.packet_count())
        .field("octet_count", sr.octet_count())
        .list("blocks", sr.report_blocks().map(block))
        .bytes("extension", sr.extension())
}

fn block(block: ReportBlock) -> String {
    let last = block.last_sender_report_timestamp();
    Object::new()
        .ssrc("ssrc", block.ssrc())
        .field("fraction_lost", block.fraction_lost())
        .field("cumulative_lost", block.cumulative_lost())
        .field("extended_sequence_number", block.extended_sequence_number())
        .field("interarrival_jitter", block.interarrival_jitter())
        .field("last_sr", format!("\"{last:08x}\""))
        .field(
            "delay_since_last_sr",
            block.delay_since_last_sender_report_timestamp(),
        )
        .end()
}

fn chunks(object: Object, sdes: &Sdes) -> Object {
    let chunks = sdes.chunks().map(|chunk| {
        Object::new()
            .ssrc("ssrc", chunk.ssrc())
            .field("length", chunk.length())
            .list("items", chunk.items().map(|it| item(&it)))
            .end()
    });
    object.list("chunks", chunks)
}

fn item(item: &SdesItem) -> String {
    let object = Object::new().field("type", item.type_());
    let object = object.maybe("name", item_name(item.type_()).map(quoted));
    let object = match item.priv_prefix() {
        Ok(prefix) => object.words("prefix", prefix),
        Err(_) => object,
    };
    object.words("value", item.value()).end()
}

fn goodbye(object: Object, bye: &Bye) -> Object {
    let sources = bye.ssrcs().map(|ssrc| format!("\"{ssrc:08x}\""));
    let object = object.list("sources", sources);
    let object = match bye.reason() {
        Some(reason) => object.words("reason", reason),
        None => object.field("reason", "null"),
    };
    object.bytes("tail", bye.tail())
}

fn application_defined(object: Object, app: &App) -> Object {
    object
        .field("subtype", app.subtype())
        .ssrc("ssrc", app.ssrc())
        .words("name", &app.name())
        .bytes("data", app.data())
}

fn other(object: Object, unknown: &Unknown) -> Object {
    object.bytes("body", unknown.body())
}

/// The line of a place where a file is damaged.
pub fn damage(file: &str, text: &str) -> String {
    let line = Object::line("damage").text("file", file);
    line.text("text", text).end()
}
