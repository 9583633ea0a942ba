//! Rows that read. Places of parts are counted here, from the packet that the model
//! reads and the layout of its kind.

use super::{shown, Row};
use model::*;

/// Every field of the C function's result.
pub(super) fn answer(row: &Row) -> String {
    match block(row) {
        Some(block) => shown(&result(7, block.map(|block| block.numbers().to_vec()))),
        None => shown(&numbers(row)),
    }
}

/// The block that a row reads; none where the function gives no block.
fn block(row: &Row) -> Option<Answer<Block>> {
    let s = &row.bytes[..];
    Some(match row.function.as_str() {
        "block_parse" => read_block(s),
        "rr_report_block" => read_block_at(Kind::Rr, s, row.number(0)),
        "sr_report_block" => read_block_at(Kind::Sr, s, row.number(0)),
        _ => return None,
    })
}

fn numbers(row: &Row) -> Vec<u64> {
    let s = &row.bytes[..];
    let n = |at| row.number::<u64>(at);
    match row.function.as_str() {
        "rr_parse" => result(6, read_as(Kind::Rr, s).map(packet)),
        "sr_parse" => result(10, read_as(Kind::Sr, s).map(packet)),
        "app_parse" => result(8, read_as(Kind::App, s).map(packet)),
        "bye_parse" => result(8, read_as(Kind::Bye, s).map(packet)),
        "sdes_parse" => result(4, read_as(Kind::Sdes, s).map(packet)),
        "bye_source" => result(1, read_source_at(s, n(0)).map(|ssrc| vec![ssrc.into()])),
        "item_parse" => result(6, read_item(s).map(|(item, _)| item_fields(&item, 0))),
        "item_priv_prefix" => result(2, read_prefix(s).map(|p| vec![3, len(&p)])),
        "chunk_parse" => result(3, read_chunk(s).map(|(chunk, _)| chunk_fields(&chunk))),
        "held_open" | "chunk_walk_open" => result(2, open_sdes(s).map(|w| vec![w.position, w.end])),
        "held_step" | "chunk_walk_step" => chunk_step(s, n(0), n(1)),
        "item_walk_open" => result(1, open_items(s).map(|at| vec![at])),
        "item_walk_step" => item_walk_step(s, n(0)),
        "compound_parse" => result(1, read_compound(s).map(|list| vec![list.len() as u64])),
        "walk_open" => result(1, open(s).map(|at| vec![at])),
        "walk_step" => walk_step(s, n(0)),
        "held_chunk" => held_chunk(s, n(0)),
        function => panic!("no such function: {function}"),
    }
}

/// A part of a packet or of an item; none where the function gives no part.
pub(super) fn part(function: &str, s: &[u8]) -> Option<Vec<u8>> {
    let (kind, field) = function.split_once('_')?;
    let kind = match kind {
        "rr" => Some(Kind::Rr),
        "sr" => Some(Kind::Sr),
        "app" => Some(Kind::App),
        "bye" => Some(Kind::Bye),
        "sdes" => Some(Kind::Sdes),
        "unknown" => None,
        "item" => return item_part(field, s),
        _ => return None,
    };
    if ![
        "extension",
        "padding",
        "name",
        "data",
        "reason",
        "tail",
        "body",
    ]
    .contains(&field)
    {
        return None;
    }
    let read = match kind {
        Some(kind) => read_as(kind, s),
        None => unknown(s),
    };
    Some(
        read.map(|packet| field_of(packet, field))
            .unwrap_or_default(),
    )
}

fn item_part(field: &str, s: &[u8]) -> Option<Vec<u8>> {
    match field {
        "value" => Some(read_item(s).map(|(item, _)| item.value).unwrap_or_default()),
        "prefix" => Some(read_prefix(s).unwrap_or_default()),
        _ => None,
    }
}

/// A packet whose type has no layout, alone: the last of a datagram after an RR.
fn unknown(s: &[u8]) -> Answer<Packet> {
    let datagram = [&[0x80, 201, 0, 1, 0, 0, 0, 0], s].concat();
    let (packet, end) = step(&datagram, 8)?;
    match packet.content {
        Content::Unknown { .. } if end == len(&datagram) => Ok(packet),
        _ => Err(Refusal::NOTHING_LEFT),
    }
}

fn field_of(packet: Packet, field: &str) -> Vec<u8> {
    match (field, packet.content) {
        ("padding", _) => packet.padding,
        ("extension", Content::Report { extension, .. }) => extension,
        ("name", Content::App { name, .. }) => name.to_vec(),
        ("data", Content::App { data, .. }) => data,
        ("reason", Content::Bye { reason, .. }) => reason.unwrap_or_default(),
        ("tail", Content::Bye { tail, .. }) => tail,
        ("body", Content::Unknown { body, .. }) => body,
        (field, content) => panic!("no {field} in {content:?}"),
    }
}

/// The refusal or three zeros, then the fields, all 0 where it is refused.
fn result<T: Clone + TryFrom<u64>>(fields: usize, answer: Answer<Vec<T>>) -> Vec<T> {
    let (head, fields) = match answer {
        Ok(given) => {
            assert_eq!(given.len(), fields);
            ([0; 3], given)
        }
        Err(refusal) => (refused(&refusal), vec![number(0); fields]),
    };
    [head.map(number).to_vec(), fields].concat()
}

fn number<T: TryFrom<u64>>(number: u64) -> T {
    T::try_from(number).ok().expect("a number of that width")
}

pub(super) fn refused(refusal: &Refusal) -> [u64; 3] {
    [refusal.number.into(), refusal.first, refusal.second]
}

fn len(bytes: &[u8]) -> u64 {
    bytes.len() as u64
}

/// The fields of a packet, each part as its place and its length.
fn packet(packet: Packet) -> Vec<u64> {
    let count = packet.low_bits() as u64;
    let (mut fields, end) = match packet.content {
        Content::Report {
            ssrc,
            sender,
            blocks,
            extension,
        } => {
            let at = if sender.is_some() { 28 } else { 8 } + 24 * len_of(&blocks);
            let info = sender.map_or(Vec::new(), info);
            let rest = vec![count, at, len(&extension)];
            let fields = [vec![ssrc.into()], info, rest].concat();
            (fields, at + len(&extension))
        }
        Content::Sdes { chunks } => {
            let body = 4 + chunks.iter().map(chunk_length).sum::<u64>();
            let cname = chunks.iter().any(Chunk::has_cname);
            (vec![count, cname.into()], body)
        }
        Content::Bye {
            sources,
            reason,
            tail,
        } => {
            let has_reason = u64::from(reason.is_some());
            let at = 4 + 4 * len_of(&sources) + has_reason;
            let reason = len(&reason.unwrap_or_default());
            let fields = vec![count, has_reason, at, reason, at + reason, len(&tail)];
            (fields, at + reason + len(&tail))
        }
        Content::App { ssrc, data, .. } => (
            vec![count, ssrc.into(), 8, 4, 12, len(&data)],
            12 + len(&data),
        ),
        Content::Unknown { .. } => panic!("no function gives its fields"),
    };
    fields.extend([end, len(&packet.padding)]);
    fields
}

fn info(info: SenderInfo) -> Vec<u64> {
    let words = [info.rtp_time, info.packet_count, info.octet_count];
    [vec![info.ntp_time], words.map(u64::from).to_vec()].concat()
}

fn len_of<T>(list: &[T]) -> u64 {
    list.len() as u64
}

/// The low five bits of a packet's first byte.
fn item_length(item: &Item) -> u64 {
    u64::from(item.item_type == PRIV) + len(&item.prefix) + len(&item.value)
}

fn item_fields(item: &Item, at: u64) -> Vec<u64> {
    let prefix = at + 2 + u64::from(item.item_type == PRIV);
    let value = prefix + len(&item.prefix);
    let own = [item.item_type.into(), item_length(item)];
    let places = [prefix, len(&item.prefix), value, len(&item.value)];
    [&own[..], &places].concat()
}

/// With at least one closing zero, to the boundary.
fn chunk_length(chunk: &Chunk) -> u64 {
    let items: u64 = chunk.items.iter().map(|item| 2 + item_length(item)).sum();
    (4 + items) / 4 * 4 + 4
}

fn chunk_fields(chunk: &Chunk) -> Vec<u64> {
    let mut at = 4;
    let mut cname = 0;
    for item in &chunk.items {
        if item.item_type == CNAME && cname == 0 {
            cname = at;
        }
        at += 2 + item_length(item);
    }
    vec![chunk.ssrc.into(), chunk_length(chunk), cname]
}

/// The walk comes back on a refusal too.
fn chunk_step(s: &[u8], position: u64, end: u64) -> Vec<u64> {
    let walk = SdesWalk { position, end };
    let (fields, walk) = match sdes_step(s, walk) {
        Ok((chunk, walk)) => (Ok(chunk_fields(&chunk)), walk),
        Err(refusal) => (Err(refusal), walk),
    };
    [result(3, fields), vec![walk.position, walk.end]].concat()
}

/// Step i of a walk that is opened on the bytes; without it, i and 0 in the walk's place.
fn held_chunk(s: &[u8], i: u64) -> Vec<u64> {
    let mut stepped = open_sdes(s).map(|walk| vec![walk.position, walk.end]);
    for _ in 0..=i {
        let Ok(at) = &stepped else { break };
        let step = chunk_step(s, at[at.len() - 2], at[at.len() - 1]);
        stepped = match step[0] {
            0 => Ok(step[3..].to_vec()),
            _ => Err(Refusal::NOTHING_LEFT),
        };
    }
    match stepped {
        Ok(fields) => result(5, Ok(fields)),
        Err(refusal) => [result(3, Err(refusal)), vec![i, 0]].concat(),
    }
}

fn item_walk_step(s: &[u8], at: u64) -> Vec<u64> {
    let (fields, next) = match item_step(s, at) {
        Ok((item, next)) => (Ok(item_fields(&item, at)), next),
        Err(refusal) => (Err(refusal), at),
    };
    [result(6, fields), vec![next]].concat()
}

fn walk_step(s: &[u8], at: u64) -> Vec<u64> {
    let (fields, next) = match step(s, at) {
        Ok((packet, next)) => (Ok(step_fields(packet, at, next - at)), next),
        Err(refusal) => (Err(refusal), at),
    };
    [result(17, fields), vec![next]].concat()
}

/// Of a packet of a datagram: places are counted from its start, and a field that
/// its kind has not is 0.
fn step_fields(packet: Packet, at: u64, size: u64) -> Vec<u64> {
    let packet_type = packet.packet_type();
    let kind = match &packet.content {
        Content::Unknown { .. } => 0,
        _ => packet_type.into(),
    };
    let body = size - len(&packet.padding);
    let head = vec![
        kind,
        packet_type.into(),
        packet.low_bits() as u64,
        at,
        size,
        body,
        size - body,
    ];
    // SSRC, the four numbers of a sender, extension, CNAME, reason.
    let own = match &packet.content {
        Content::Report { sender, .. } => {
            let fields = self::packet(packet.clone());
            let (ssrc, info) = (fields[0], sender.map_or(vec![0; 4], info));
            let extension = fields[fields.len() - 4];
            [vec![ssrc], info, vec![extension, 0, 0, 0, 0]].concat()
        }
        Content::App { ssrc, .. } => [vec![u64::from(*ssrc)], vec![0; 9]].concat(),
        Content::Sdes { .. } => [vec![0; 6], vec![packet.has_cname().into()], vec![0; 3]].concat(),
        Content::Bye { .. } => {
            let fields = self::packet(packet.clone());
            [vec![0; 7], fields[1..4].to_vec()].concat()
        }
        Content::Unknown { .. } => vec![0; 10],
    };
    [head, own].concat()
}
