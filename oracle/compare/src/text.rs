//! The input of an operation as a line of text.

use crate::operation::Operation;
use crate::view::hex;
use model::*;

/// The operation's name and its inputs, each as `name=value`.
pub fn inputs(operation: &Operation) -> String {
    let mut line = operation.name().replace(' ', "_");
    let mut put = |name: &str, value: String| line += &format!(" {name}={value}");
    if let Operation::ReadBlockAt(kind, ..) = operation {
        put("requested", kind.packet_type().to_string());
    }
    if let Some(bytes) = operation.bytes_read() {
        put("bytes", run(bytes));
    }
    match operation {
        Operation::ReadBlockAt(_, _, index) | Operation::ReadSourceAt(_, index) => {
            put("index", index.to_string());
        }
        Operation::Step(_, position) | Operation::ItemStep(_, position) => {
            put("position", position.to_string());
        }
        Operation::SdesStep(_, walk) => {
            put("position", walk.position.to_string());
            put("end", walk.end.to_string());
        }
        Operation::List(_, _, before) => {
            for numbers in before {
                put("list", list(numbers, i128::to_string));
            }
        }
        Operation::LookUp(_, ssrcs, answers) => {
            put("ssrcs", list(ssrcs, u32::to_string));
            put("answers", run(answers));
        }
        Operation::Write(g, buffer) => {
            given(g, &mut put);
            put("buffer", run(buffer));
        }
        Operation::WriteChunk(lists, buffer) => {
            put("ssrc", lists.ssrc.to_string());
            items(&lists.items, &mut put);
            put("buffer", run(buffer));
        }
        Operation::WriteItem(item, buffer) => {
            put("type", item.item_type.to_string());
            put("prefix", run(&item.prefix));
            put("value", run(&item.value));
            put("buffer", run(buffer));
        }
        Operation::Add(w, g, buffer) => {
            writer(w, &mut put);
            put("given", g.kind().packet_type().to_string());
            given(g, &mut put);
            put("buffer", run(buffer));
        }
        Operation::Close(w) => writer(w, &mut put),
        Operation::Turn(book, call) => {
            put("closed", u8::from(book.closed).to_string());
            put(
                "packets",
                list(&book.packets, |packet| run(&layout(packet))),
            );
            match call {
                Call::Add { given: g, buffer } => {
                    put("given", g.kind().packet_type().to_string());
                    given(g, &mut put);
                    put("room", buffer.to_string());
                }
                Call::Close => put("given", "-".to_string()),
            }
        }
        Operation::NewReception(seq) => put("seq", seq.to_string()),
        Operation::Receive(before, e) => {
            put("state", list(&before.numbers(), u32::to_string));
            put("event", event(e));
        }
        Operation::History(first, events) => {
            put("first", first.to_string());
            put("events", list(events, event));
        }
        _ => {}
    }
    line
}

/// A packet's number, timestamp and arrival, or what a block is given.
pub fn event(event: &Event) -> String {
    match event {
        Event::Packet {
            seq,
            timestamp,
            arrival,
        } => format!("packet:{seq}:{timestamp}:{arrival}"),
        Event::Block {
            ssrc,
            last_sr,
            delay,
        } => format!("block:{ssrc}:{last_sr}:{delay}"),
    }
}

/// The bytes of a run of hexadecimal digits, spaces apart or not.
pub fn from_hex(text: &str) -> Vec<u8> {
    let digits: Vec<u8> = text.bytes().filter(|byte| *byte != b' ').collect();
    digits
        .chunks(2)
        .map(|two| {
            let two = std::str::from_utf8(two).expect("hexadecimal");
            u8::from_str_radix(two, 16).expect("hexadecimal")
        })
        .collect()
}

fn run(bytes: &[u8]) -> String {
    format!("x{}", hex(bytes))
}

fn list<T>(items: &[T], show: impl Fn(&T) -> String) -> String {
    let items: Vec<String> = items.iter().map(show).collect();
    format!("[{}]", items.join(","))
}

fn writer(writer: &Writer, put: &mut impl FnMut(&str, String)) {
    put("so_far", writer.length.to_string());
    put("closed", u8::from(writer.closed).to_string());
    put("padded", u8::from(writer.padded).to_string());
    put("cname", u8::from(writer.cname).to_string());
}

fn items(items: &ItemLists, put: &mut impl FnMut(&str, String)) {
    put("types", list(&items.types, u8::to_string));
    put(
        "prefix_lengths",
        list(&items.prefix_lengths, u64::to_string),
    );
    put("value_lengths", list(&items.value_lengths, u64::to_string));
    put("bytes", run(&items.bytes));
}

fn given(given: &Given, put: &mut impl FnMut(&str, String)) {
    match given {
        Given::Report {
            ssrc,
            sender,
            blocks,
            ..
        } => {
            put("ssrc", ssrc.to_string());
            if let Some(sender) = sender {
                put("ntp_time", sender.ntp_time.to_string());
                put("rtp_time", sender.rtp_time.to_string());
                put("packet_count", sender.packet_count.to_string());
                put("octet_count", sender.octet_count.to_string());
            }
            put("fractions", run(&blocks.fractions));
            put("losses", list(&blocks.losses, i32::to_string));
            put("words", list(&blocks.words, u32::to_string));
        }
        Given::Sdes { lists, .. } => {
            put("ssrcs", list(&lists.ssrcs, u32::to_string));
            put("counts", list(&lists.counts, u64::to_string));
            items(&lists.items, put);
        }
        Given::Bye {
            sources, reason, ..
        } => {
            put("sources", list(sources, u32::to_string));
            put("reason", run(reason));
        }
        Given::App {
            subtype,
            ssrc,
            name,
            data,
            ..
        } => {
            put("subtype", subtype.to_string());
            put("ssrc", ssrc.to_string());
            put("name", run(name));
            put("data", run(data));
        }
    }
    put("padding", given.padding().to_string());
}
