//! What a side shows of an operation: a verdict and a run of named values.
//!
//! Every side lists the same names in the same order for an operation, and says
//! `Unseen` for what it has no way to show, so that two views compare in one
//! pass.

use crate::operation::{Operation, Outcome};
use crate::reception::{numbers, received};
use model::*;
use std::fmt;

#[derive(Clone, Debug, PartialEq, Eq)]
pub enum Value {
    /// The side cannot show this.
    Unseen,
    /// There is no such part.
    Nothing,
    /// Of 64 bits, or a loss, which has a sign.
    Number(i128),
    /// Any number up to this one: no more of it is fixed.
    AtMost(i128),
    Bytes(Vec<u8>),
    Numbers(Vec<i128>),
    Refused(Refusal),
    Panic,
}

#[derive(Clone, Copy, Debug, PartialEq, Eq)]
pub enum Verdict {
    Accepted,
    Refused(Refusal),
    Panicked,
}

#[derive(Clone, Debug, PartialEq, Eq)]
pub struct View {
    pub verdict: Verdict,
    pub fields: Vec<(&'static str, Value)>,
}

impl View {
    pub fn accepted() -> Self {
        View {
            verdict: Verdict::Accepted,
            fields: Vec::new(),
        }
    }

    pub fn refused(refusal: Refusal) -> Self {
        View {
            verdict: Verdict::Refused(refusal),
            fields: Vec::new(),
        }
    }

    pub fn of_answer<T>(answer: Answer<T>, fill: impl FnOnce(&mut View, T)) -> Self {
        match answer {
            Ok(value) => {
                let mut view = View::accepted();
                fill(&mut view, value);
                view
            }
            Err(refusal) => View::refused(refusal),
        }
    }

    pub fn put(&mut self, name: &'static str, value: Value) {
        self.fields.push((name, value));
    }

    pub fn number(&mut self, name: &'static str, number: impl Into<i128>) {
        self.put(name, Value::Number(number.into()));
    }

    pub fn count(&mut self, name: &'static str, count: usize) {
        self.number(name, count as i128);
    }

    pub fn bytes(&mut self, name: &'static str, bytes: &[u8]) {
        self.put(name, Value::Bytes(bytes.to_vec()));
    }

    /// The same verdict, and the same values where both show one.
    pub fn agrees(&self, other: &View) -> bool {
        self.verdict == other.verdict
            && self.fields.len() == other.fields.len()
            && self.fields.iter().zip(&other.fields).all(same)
    }
}

fn same((left, right): (&(&str, Value), &(&str, Value))) -> bool {
    left.0 == right.0 && left.1.agrees(&right.1)
}

impl Value {
    fn agrees(&self, other: &Value) -> bool {
        match (self, other) {
            (Value::Unseen, _) | (_, Value::Unseen) => true,
            (Value::AtMost(most), Value::Number(number))
            | (Value::Number(number), Value::AtMost(most)) => (0..=*most).contains(number),
            _ => self == other,
        }
    }
}

// ---- the view of an outcome: everything is seen

impl View {
    pub fn of(operation: &Operation, outcome: &Outcome) -> View {
        match outcome.clone() {
            Outcome::Packet(answer) => View::of_answer(answer, |view, p| packet(view, &p)),
            Outcome::Block(answer) => View::of_answer(answer, |view, b| block(view, &b)),
            Outcome::Item(answer) => View::of_answer(answer, |view, (i, used)| {
                item(view, &i);
                view.count("used", used);
            }),
            Outcome::Prefix(answer) => View::of_answer(answer, |view, prefix| {
                view.bytes("prefix", &prefix);
            }),
            Outcome::Chunk(answer) => View::of_answer(answer, |view, (c, used)| {
                chunk(view, &c);
                view.count("used", used);
            }),
            Outcome::Source(answer) => View::of_answer(answer, |view, source| {
                view.number("source", source);
            }),
            Outcome::Packets(answer) => View::of_answer(answer, |view, list| packets(view, &list)),
            Outcome::Opened(answer) => View::of_answer(answer, |view, position| {
                view.number("position", position);
            }),
            Outcome::Step(answer) => View::of_answer(answer, |view, (p, position)| {
                packet(view, &p);
                view.number("position", position);
            }),
            Outcome::OpenedSdes(answer) => View::of_answer(answer, sdes_walk),
            Outcome::SdesStep(answer) => View::of_answer(answer, |view, (c, walk)| {
                chunk(view, &c);
                sdes_walk(view, walk);
            }),
            Outcome::ItemStep(answer) => View::of_answer(answer, |view, (i, position)| {
                item(view, &i);
                view.number("position", position);
            }),
            Outcome::Listed(answer, lists) => {
                let mut view = View::of_answer(answer, |view, count| view.number("listed", count));
                for list in lists {
                    view.put("list", Value::Numbers(list));
                }
                view
            }
            Outcome::LookedUp(answer, answers) => {
                let mut view = View::of_answer(answer, |view, most| {
                    view.put("visits", Value::AtMost(most.into()));
                });
                view.bytes("answers", &answers);
                view
            }
            Outcome::Written(answer, buffer) => {
                let mut view = View::of_answer(answer, |view, size| view.number("written", size));
                view.put("size", size_value(operation));
                view.bytes("buffer", &buffer);
                view
            }
            Outcome::Added(answer, after, buffer) => {
                let mut view = View::of_answer(answer, |_, ()| {});
                writer(&mut view, after);
                view.bytes("buffer", &buffer);
                view
            }
            Outcome::Closed(answer, after) => {
                let mut view = View::of_answer(answer, |_, ()| {});
                writer(&mut view, after);
                view
            }
            Outcome::Turned(answer, book) => {
                let mut view = View::of_answer(answer, |_, ()| {});
                packets(&mut view, &book.packets);
                view.number("closed", book.closed);
                view
            }
            Outcome::Received(replies, state) => {
                let replies: Vec<Vec<i128>> = replies.iter().map(numbers).collect();
                received(operation, &replies, &state)
            }
        }
    }
}

/// The size that a write wants, which does not depend on the buffer.
fn size_value(operation: &Operation) -> Value {
    let size = match operation {
        Operation::Write(given, _) => size(given),
        Operation::WriteChunk(lists, _) => size_of_chunk(lists),
        Operation::WriteItem(item, _) => size_of_item(item),
        _ => return Value::Nothing,
    };
    size.map_or_else(Value::Refused, |size| Value::Number(size.into()))
}

pub fn block(view: &mut View, block: &Block) {
    view.number("block_ssrc", block.ssrc);
    view.number("fraction_lost", block.fraction_lost);
    view.number("cumulative_lost", block.cumulative_lost);
    view.number("extended_sequence", block.extended_sequence);
    view.number("jitter", block.jitter);
    view.number("last_sr", block.last_sr);
    view.number("delay", block.delay);
}

fn item(view: &mut View, item: &Item) {
    let is_priv = item.item_type == PRIV;
    view.number("item_type", item.item_type);
    view.count("item_length", layout_item(item).len() - 2);
    if is_priv {
        view.count("prefix_length", item.prefix.len());
        view.bytes("prefix", &item.prefix);
    }
    view.bytes("value", &item.value);
}

fn chunk(view: &mut View, chunk: &Chunk) {
    view.number("chunk_ssrc", chunk.ssrc);
    view.count("chunk_length", layout_chunk(chunk).len());
    view.count("items", chunk.items.len());
    for i in &chunk.items {
        item(view, i);
    }
}

fn packets(view: &mut View, packets: &[Packet]) {
    view.count("packets", packets.len());
    for p in packets {
        packet(view, p);
    }
}

fn packet(view: &mut View, packet: &Packet) {
    view.number("type", packet.packet_type());
    view.count("low", packet.low_bits());
    view.count("length", layout(packet).len());
    match packet.padding.len() {
        0 => view.put("padding", Value::Nothing),
        count => view.count("padding", count),
    }
    content(view, &packet.content);
    view.bytes("padding_bytes", &packet.padding);
}

fn content(view: &mut View, content: &Content) {
    match content {
        Content::Report {
            ssrc,
            sender,
            blocks,
            extension,
        } => {
            view.number("ssrc", *ssrc);
            if let Some(sender) = sender {
                view.number("ntp_time", sender.ntp_time);
                view.number("rtp_time", sender.rtp_time);
                view.number("packet_count", sender.packet_count);
                view.number("octet_count", sender.octet_count);
            }
            view.count("blocks", blocks.len());
            for b in blocks {
                block(view, b);
            }
            view.bytes("extension", extension);
        }
        Content::Sdes { chunks } => {
            view.count("chunks", chunks.len());
            for c in chunks {
                chunk(view, c);
            }
        }
        Content::Bye {
            sources,
            reason,
            tail,
        } => {
            view.count("sources", sources.len());
            for source in sources {
                view.number("source", *source);
            }
            match reason {
                None => view.put("reason", Value::Nothing),
                Some(reason) => view.bytes("reason", reason),
            }
            view.bytes("tail", tail);
        }
        Content::App {
            subtype: _,
            ssrc,
            name,
            data,
        } => {
            view.number("ssrc", *ssrc);
            view.bytes("name", name);
            view.bytes("data", data);
        }
        Content::Unknown { body, .. } => view.bytes("body", body),
    }
}

fn sdes_walk(view: &mut View, walk: SdesWalk) {
    view.number("position", walk.position);
    view.number("end", walk.end);
}

fn writer(view: &mut View, writer: Writer) {
    view.number("so_far", writer.length);
    view.number("closed", writer.closed);
    view.number("padded", writer.padded);
    view.number("cname", writer.cname);
}

// ---- as text

impl fmt::Display for Value {
    fn fmt(&self, f: &mut fmt::Formatter) -> fmt::Result {
        match self {
            Value::Unseen => write!(f, "?"),
            Value::Nothing => write!(f, "-"),
            Value::Number(number) => write!(f, "{number}"),
            Value::AtMost(most) => write!(f, "0..={most}"),
            Value::Bytes(bytes) => write!(f, "x{}", hex(bytes)),
            Value::Numbers(numbers) => write!(f, "{numbers:?}"),
            Value::Refused(refusal) => write!(f, "{refusal}"),
            Value::Panic => write!(f, "panic"),
        }
    }
}

impl fmt::Display for View {
    fn fmt(&self, f: &mut fmt::Formatter) -> fmt::Result {
        match self.verdict {
            Verdict::Accepted => write!(f, "ok")?,
            Verdict::Refused(refusal) => write!(f, "{refusal}")?,
            Verdict::Panicked => write!(f, "panic")?,
        }
        for (name, value) in &self.fields {
            write!(f, " {name}={value}")?;
        }
        Ok(())
    }
}

pub fn hex(bytes: &[u8]) -> String {
    bytes.iter().map(|byte| format!("{byte:02X}")).collect()
}
