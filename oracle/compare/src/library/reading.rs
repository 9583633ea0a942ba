//! Packets, blocks, items and chunks, and the walks over these.

use super::{broken, part, part_of, place, shown, walked};
use crate::view::{Value, View};
use library::*;
use model::{Kind, SdesWalk, PRIV};
use std::cmp::min;

/// The parts of a packet's end: the padding starts where the body ends.
struct End {
    body: u64,
    padding_len: u64,
}

impl End {
    fn header(&self, view: &mut View, s: &[u8], kind: Kind, low: u64) {
        view.number("type", kind.packet_type());
        view.number("low", low);
        view.count("length", s.len());
        place(
            view,
            self.body.wrapping_add(self.padding_len),
            s.len() as u64,
        );
        match self.padding_len {
            0 => view.put("padding", Value::Nothing),
            count => view.number("padding", count),
        }
    }

    fn bytes(&self, view: &mut View, s: &[u8]) {
        part(view, "padding_bytes", s, self.body, self.padding_len);
    }
}

/// No packet has more blocks, sources or chunks.
const MOST: u64 = 31;

pub(super) fn read_as(kind: Kind, s: &[u8]) -> Option<View> {
    match kind {
        Kind::Sr => read_sr(s),
        Kind::Rr => read_rr(s),
        Kind::Sdes => read_sdes(s),
        Kind::Bye => read_bye(s),
        Kind::App => read_app(s),
    }
}

fn read_rr(s: &[u8]) -> Option<View> {
    let rr = rtcp_rr_parse(s)?;
    let end = End {
        body: rr.body,
        padding_len: rr.padding_len,
    };
    Some(shown(rr, |view| {
        end.header(view, s, Kind::Rr, rr.n_reports);
        view.number("ssrc", rr.ssrc);
        show_blocks(view, rr.n_reports, |i| rtcp_rr_report_block(s, i));
        place(view, rr.extension, 8 + 24 * rr.n_reports);
        place(view, rr.extension + rr.extension_len, rr.body);
        part(view, "extension", s, rr.extension, rr.extension_len);
        end.bytes(view, s);
    }))
}

fn read_sr(s: &[u8]) -> Option<View> {
    let sr = rtcp_sr_parse(s)?;
    let end = End {
        body: sr.body,
        padding_len: sr.padding_len,
    };
    Some(shown(sr, |view| {
        end.header(view, s, Kind::Sr, sr.n_reports);
        view.number("ssrc", sr.ssrc);
        view.number("ntp_time", sr.ntp_timestamp);
        view.number("rtp_time", sr.rtp_timestamp);
        view.number("packet_count", sr.packet_count);
        view.number("octet_count", sr.octet_count);
        show_blocks(view, sr.n_reports, |i| rtcp_sr_report_block(s, i));
        place(view, sr.extension, 28 + 24 * sr.n_reports);
        place(view, sr.extension + sr.extension_len, sr.body);
        part(view, "extension", s, sr.extension, sr.extension_len);
        end.bytes(view, s);
    }))
}

fn show_blocks(view: &mut View, count: u64, block: impl Fn(u64) -> Option<RtcpBlock>) {
    view.number("blocks", count);
    for i in 0..min(count, MOST) {
        match block(i) {
            Some(block) if block.number != 0 => view.put("block", Value::Panic),
            Some(block) => show_block(view, &block),
            None => unseen_block(view),
        }
    }
}

fn show_block(view: &mut View, block: &RtcpBlock) {
    view.number("block_ssrc", block.ssrc);
    view.number("fraction_lost", block.fraction_lost);
    view.number("cumulative_lost", block.cumulative_lost);
    view.number("extended_sequence", block.extended_sequence_number);
    view.number("jitter", block.interarrival_jitter);
    view.number("last_sr", block.last_sender_report_timestamp);
    view.number("delay", block.delay_since_last_sender_report_timestamp);
}

/// A block's fields where the library cannot be asked for them.
fn unseen_block(view: &mut View) {
    let from = view.fields.len();
    show_block(view, &RtcpBlock::default());
    for (_, value) in &mut view.fields[from..] {
        *value = Value::Unseen;
    }
}

pub(super) fn block_alone(block: RtcpBlock) -> Option<View> {
    Some(shown(block, |view| show_block(view, &block)))
}

pub(super) fn source_alone(source: RtcpSource) -> Option<View> {
    Some(shown(source, |view| view.number("source", source.ssrc)))
}

pub(super) fn item_alone(s: &[u8]) -> Option<View> {
    let item = rtcp_item_parse(s)?;
    Some(shown(item, |view| {
        show_item(view, s, 0, &item);
        view.number("used", 2 + item.length);
    }))
}

pub(super) fn prefix_alone(s: &[u8]) -> Option<View> {
    let prefix = rtcp_item_priv_prefix(s)?;
    Some(shown(prefix, |view| {
        place(view, prefix.offset, 3);
        part(view, "prefix", s, prefix.offset, prefix.len);
    }))
}

fn read_bye(s: &[u8]) -> Option<View> {
    let bye = rtcp_bye_parse(s)?;
    let end = End {
        body: bye.body,
        padding_len: bye.padding_len,
    };
    Some(shown(bye, |view| {
        end.header(view, s, Kind::Bye, bye.n_sources);
        view.number("sources", bye.n_sources);
        for i in 0..min(bye.n_sources, MOST) {
            view.put("source", source(s, i));
        }
        // The byte before a reason is its length.
        place(view, bye.reason, 4 + 4 * bye.n_sources + bye.has_reason);
        place(view, bye.tail, bye.reason + bye.reason_len);
        place(view, bye.body, bye.tail + bye.tail_len);
        show_reason(view, s, bye.has_reason, bye.reason, bye.reason_len);
        part(view, "tail", s, bye.tail, bye.tail_len);
        end.bytes(view, s);
    }))
}

fn source(s: &[u8], i: u64) -> Value {
    match rtcp_bye_source(s, i) {
        Some(source) if source.number == 0 => Value::Number(source.ssrc.into()),
        Some(_) => Value::Panic,
        None => Value::Unseen,
    }
}

fn show_reason(view: &mut View, s: &[u8], has_reason: u64, reason: u64, reason_len: u64) {
    match (has_reason, reason_len) {
        (0, 0) => view.put("reason", Value::Nothing),
        (1, _) => part(view, "reason", s, reason, reason_len),
        _ => view.put("reason", Value::Panic),
    }
}

fn read_app(s: &[u8]) -> Option<View> {
    let app = rtcp_app_parse(s)?;
    let end = End {
        body: app.body,
        padding_len: app.padding_len,
    };
    Some(shown(app, |view| {
        end.header(view, s, Kind::App, app.subtype);
        view.number("ssrc", app.ssrc);
        place(view, app.name, 8);
        place(view, app.data, app.name + app.name_len);
        place(view, app.body, app.data + app.data_len);
        part(view, "name", s, app.name, app.name_len);
        part(view, "data", s, app.data, app.data_len);
        end.bytes(view, s);
    }))
}

/// The chunks of an SDES are those that a walk over it gives.
fn read_sdes(s: &[u8]) -> Option<View> {
    let sdes = rtcp_sdes_parse(s)?;
    let open = rtcp_chunk_walk_open(s)?;
    let mut walk = SdesWalk {
        position: open.at,
        end: open.end,
    };
    let end = End {
        body: sdes.body,
        padding_len: sdes.padding_len,
    };
    let mut view = shown(sdes, |_| {});
    if sdes.head() != open.head() {
        broken(&mut view, "a walk that opens otherwise");
    }
    if sdes.number != 0 {
        return Some(view);
    }
    end.header(&mut view, s, Kind::Sdes, sdes.n_chunks);
    view.number("chunks", sdes.n_chunks);
    let mut cname = false;
    for _ in 0..min(sdes.n_chunks, MOST) {
        let step = rtcp_chunk_walk_step(s, walk.position, walk.end)?;
        if step.number != 0 {
            broken(&mut view, "a walk that ends early");
            return Some(view);
        }
        show_chunk_step(&mut view, s, walk, &step)?;
        cname |= step.cname != 0;
        walk.position = step.at;
    }
    let last = rtcp_chunk_walk_step(s, walk.position, walk.end)?;
    if last.number != 25 || sdes.has_cname != u64::from(cname) {
        broken(&mut view, "a walk that ends late, or another CNAME");
    }
    end.bytes(&mut view, s);
    Some(view)
}

pub(super) fn sdes_step(s: &[u8], walk: SdesWalk) -> Option<View> {
    let step = rtcp_chunk_walk_step(s, walk.position, walk.end)?;
    let mut view = walked(
        step,
        |kept| (kept.at, kept.end) = (walk.position, walk.end),
        |_| {},
    );
    if step.number == 0 {
        show_chunk_step(&mut view, s, walk, &step)?;
        view.number("position", step.at);
        view.number("end", step.end);
    }
    Some(view)
}

fn show_chunk_step(view: &mut View, s: &[u8], walk: SdesWalk, step: &RtcpChunkStep) -> Option<()> {
    place(view, step.at, walk.position + step.length);
    place(view, step.end, walk.end);
    let Some(chunk) = part_of(s, walk.position, step.length) else {
        broken(view, "a chunk past the bytes");
        return Some(());
    };
    show_chunk(view, chunk, step.ssrc, step.cname)
}

pub(super) fn read_chunk(s: &[u8]) -> Option<View> {
    let chunk = rtcp_chunk_parse(s)?;
    let mut view = shown(chunk, |_| {});
    if chunk.number == 0 {
        let Some(bytes) = part_of(s, 0, chunk.length) else {
            broken(&mut view, "a chunk past the bytes");
            return Some(view);
        };
        show_chunk(&mut view, bytes, chunk.ssrc, chunk.cname)?;
        view.number("used", chunk.length);
    }
    Some(view)
}

/// A chunk's items are those that a walk over it gives.
fn show_chunk(view: &mut View, chunk: &[u8], ssrc: u64, cname: u64) -> Option<()> {
    view.number("chunk_ssrc", ssrc);
    view.count("chunk_length", chunk.len());
    let open = rtcp_item_walk_open(chunk)?;
    let mut items = Vec::new();
    let mut at = open.at;
    let last = loop {
        let step = rtcp_item_walk_step(chunk, at)?;
        if step.number != 0 || step.at <= at {
            break step;
        }
        items.push((at, step));
        at = step.at;
    };
    let first = items.iter().find(|(_, item)| item.type_ == 1);
    if open.number != 0 || last.number != 25 || last.at != at {
        broken(view, "a walk over items that fails");
    }
    if cname != first.map_or(0, |(at, _)| *at) {
        broken(view, "another CNAME");
    }
    view.count("items", items.len());
    for (at, item) in &items {
        show_item_step(view, chunk, *at, item);
    }
    Some(())
}

pub(super) fn item_step(s: &[u8], at: u64) -> Option<View> {
    let step = rtcp_item_walk_step(s, at)?;
    Some(walked(
        step,
        |kept| kept.at = at,
        |view| {
            show_item_step(view, s, at, &step);
            view.number("position", step.at);
        },
    ))
}

fn show_item_step(view: &mut View, s: &[u8], at: u64, step: &RtcpItemStep) {
    let item = RtcpItem {
        type_: step.type_,
        length: step.length,
        prefix: step.prefix,
        prefix_len: step.prefix_len,
        value: step.value,
        value_len: step.value_len,
        ..RtcpItem::default()
    };
    place(view, step.at, at + 2 + item.length);
    show_item(view, s, at, &item);
}

/// An item that starts at `at`.
fn show_item(view: &mut View, s: &[u8], at: u64, item: &RtcpItem) {
    let is_priv = item.type_ == u64::from(PRIV);
    view.number("item_type", item.type_);
    view.number("item_length", item.length);
    place(view, item.prefix, at + 2 + u64::from(is_priv));
    place(view, item.value, item.prefix + item.prefix_len);
    place(view, item.value + item.value_len, at + 2 + item.length);
    if is_priv {
        view.number("prefix_length", item.prefix_len);
        part(view, "prefix", s, item.prefix, item.prefix_len);
    } else if item.prefix_len != 0 {
        broken(view, "a prefix without PRIV");
    }
    part(view, "value", s, item.value, item.value_len);
}
