//! The nine rows of "Where the RFC overrides the Rust", each as a switch, and a
//! tenth: cumulative lost, which has a sign by order 1 of document 02.
//!
//! With no row on, the readings and writings below are the model's; with all
//! of them on they are the Rust's. A row explains a difference on an input where
//! switching it on, alone or with others, gives what the Rust gives.

use crate::operation::Operation;
use crate::side::Side;
use crate::view::{self, Value, View};
use model::*;
use std::fmt;

/// A set of rows.
#[derive(Clone, Copy, Debug, PartialEq, Eq, PartialOrd, Ord)]
pub struct Rows(u16);

impl Rows {
    pub const NONE: Rows = Rows(0);
    pub const ALL: Rows = Rows::of(&[1, 2, 3, 4, 5, 6, 7, 8, 9, 10]);

    pub const fn of(numbers: &[u8]) -> Rows {
        let mut bits = 0;
        let mut i = 0;
        while i < numbers.len() {
            bits |= 1 << numbers[i];
            i += 1;
        }
        Rows(bits)
    }

    pub fn has(self, number: u8) -> bool {
        self.0 >> number & 1 == 1
    }

    pub fn without(self, number: u8) -> Rows {
        Rows(self.0 & !(1 << number))
    }

    pub fn numbers(self) -> impl Iterator<Item = u8> {
        (1..=10).filter(move |number| self.has(*number))
    }

    /// The sets within this one, smaller ones first.
    pub fn subsets(self) -> Vec<Rows> {
        let mut subsets: Vec<Rows> = (0..=self.0)
            .filter(|bits| bits & !self.0 == 0)
            .map(Rows)
            .collect();
        subsets.sort_by_key(|rows| rows.0.count_ones());
        subsets
    }
}

impl fmt::Display for Rows {
    fn fmt(&self, f: &mut fmt::Formatter) -> fmt::Result {
        let numbers: Vec<String> = self.numbers().map(|number| number.to_string()).collect();
        write!(f, "{}", numbers.join(","))
    }
}

/// The smallest set of rows that explains what the Rust shows.
pub fn explain(operation: &Operation, rust: &View) -> Option<Rows> {
    rows_about(operation).subsets().into_iter().find(|rows| {
        Switched(*rows)
            .view(operation)
            .is_some_and(|view| view.agrees(rust))
    })
}

/// The rows that an operation can fall under.
fn rows_about(operation: &Operation) -> Rows {
    match operation {
        Operation::ReadAs(Kind::Sr | Kind::Rr, _) | Operation::ReadBlockAt(..) => {
            Rows::of(&[1, 10])
        }
        Operation::ReadBlock(_) | Operation::Write(Given::Report { .. }, _) => Rows::of(&[10]),
        Operation::Write(..) | Operation::WriteChunk(..) | Operation::WriteItem(..) => {
            Rows::of(&[6, 7, 9])
        }
        _ => Rows::of(&[1, 2, 3, 4, 5, 8]),
    }
}

/// The model with some rows as in the Rust.
pub struct Switched(pub Rows);

impl Side for Switched {
    fn name(&self) -> &'static str {
        "rows"
    }

    fn view(&self, operation: &Operation) -> Option<View> {
        let mut view = switched(operation, self.0)?;
        if self.0.has(10) {
            show_loss_bits(&mut view);
        }
        Some(view)
    }
}

/// Row 10: the Rust shows the 24 bits of a loss.
fn show_loss_bits(view: &mut View) {
    for (name, value) in &mut view.fields {
        if let ("cumulative_lost", Value::Number(number)) = (*name, value) {
            *number = number.rem_euclid(1 << 24);
        }
    }
}

fn switched(operation: &Operation, rows: Rows) -> Option<View> {
    Some(match operation {
        Operation::ReadAs(kind, bytes) => read_packet(*kind, bytes, rows),
        Operation::ReadBlockAt(kind, bytes, index) => part_at(
            read_packet(*kind, bytes, rows),
            "blocks",
            BLOCK_FIELDS,
            *index,
        ),
        Operation::ReadSourceAt(bytes, index) => {
            part_at(read_packet(Kind::Bye, bytes, rows), "sources", 1, *index)
        }
        Operation::ReadItem(bytes) => View::of_answer(read_item(bytes, rows), |view, item| {
            item.show(view);
            view.count("used", item.bytes.len());
        }),
        Operation::ReadPrefix(bytes) => match read_item(bytes, rows) {
            Ok(item) if item.bytes[0] == PRIV => {
                let mut view = View::accepted();
                view.put("prefix", item.part(3, 3 + item.prefix_length()));
                view
            }
            Ok(item) => View::refused(Refusal::not_priv(item.bytes[0])),
            Err(refusal) => View::refused(refusal),
        },
        Operation::ReadChunk(bytes) => View::of_answer(read_chunk(bytes, rows), |view, chunk| {
            chunk.show(view, rows);
            view.count("used", chunk.used);
        }),
        Operation::ReadBlock(_) => View::of(operation, &operation.modelled()),
        Operation::Write(given, before) => write_packet(given, before, rows),
        Operation::WriteChunk(lists, before) => write_chunk(lists, before, rows),
        Operation::WriteItem(item, before) => write_item(item, before, rows),
        _ => return None,
    })
}

// ---- reading

/// Row 1: the Rust checks the padding count only for 0, and all but APP read
/// into the padding.
fn read_packet(kind: Kind, bytes: &[u8], rows: Rows) -> View {
    let mut view = View::accepted();
    match read_packet_into(&mut view, kind, bytes, rows) {
        Ok(()) => view,
        Err(refusal) => View::refused(refusal),
    }
}

fn read_packet_into(view: &mut View, kind: Kind, bytes: &[u8], rows: Rows) -> Answer<()> {
    check_header(kind, bytes)?;
    let count = padding_count(kind, bytes, rows)?;
    let body = match kind {
        Kind::App => bytes.len().checked_sub(count),
        _ if rows.has(1) => Some(bytes.len()),
        _ => Some(bytes.len() - count),
    };
    view.number("type", bytes[1]);
    view.number("low", bytes[0] & 31);
    view.count("length", bytes.len());
    match count {
        0 => view.put("padding", Value::Nothing),
        count => view.count("padding", count),
    }
    match (kind, body) {
        (Kind::App, _) => show_app(view, bytes, body),
        (_, None) => unreachable!("only an APP subtracts unchecked"),
        (Kind::Sdes, Some(body)) => show_sdes(view, &bytes[..body], rows)?,
        (Kind::Bye, Some(body)) => show_bye(view, &bytes[..body], count, rows)?,
        (_, Some(body)) => show_report(view, kind, &bytes[..body])?,
    }
    view.put("padding_bytes", Value::Unseen);
    Ok(())
}

/// The padding count, 0 for none.
fn padding_count(kind: Kind, bytes: &[u8], rows: Rows) -> Answer<usize> {
    if bytes[0] & 0x20 == 0 {
        return Ok(0);
    }
    let count = usize::from(bytes[bytes.len() - 1]);
    let fits = count.is_multiple_of(4) && count <= bytes.len() - kind.least();
    if count == 0 || !(fits || rows.has(1)) {
        return Err(Refusal::INVALID_PADDING_READ);
    }
    Ok(count)
}

fn show_report(view: &mut View, kind: Kind, body: &[u8]) -> Answer<()> {
    let end = kind.least() + 24 * usize::from(body[0] & 31);
    if body.len() < end {
        return Err(Refusal::truncated(end, body.len()));
    }
    view.number("ssrc", word(&body[4..]));
    if kind == Kind::Sr {
        view.number(
            "ntp_time",
            u64::from(word(&body[8..])) << 32 | u64::from(word(&body[12..])),
        );
        view.number("rtp_time", word(&body[16..]));
        view.number("packet_count", word(&body[20..]));
        view.number("octet_count", word(&body[24..]));
    }
    let blocks = body[kind.least()..end].chunks(24);
    view.count("blocks", blocks.len());
    for bytes in blocks {
        view::block(view, &read_block(bytes)?);
    }
    view.put("extension", Value::Unseen);
    Ok(())
}

fn word(bytes: &[u8]) -> u32 {
    bytes[..4]
        .iter()
        .fold(0, |sum, byte| sum << 8 | u32::from(*byte))
}

fn show_bye(view: &mut View, body: &[u8], padding: usize, rows: Rows) -> Answer<()> {
    let sources_end = 4 + 4 * usize::from(body[0] & 31);
    if body.len() < sources_end {
        return Err(Refusal::truncated(sources_end, body.len()));
    }
    view.count("sources", (sources_end - 4) / 4);
    for source in body[4..sources_end].chunks(4) {
        view.number("source", word(source));
    }
    let mut reason = Value::Nothing;
    if body.len() > sources_end {
        let start = sources_end + 1;
        let end = start + usize::from(body[sources_end]);
        if end > body.len() {
            return Err(Refusal::truncated(end, body.len()));
        }
        // The Rust's `reason` takes the padding off after all.
        let inside = if rows.has(1) { padding } else { 0 };
        if body.len() > start + inside {
            reason = Value::Bytes(body[start..end].to_vec());
        }
    }
    view.put("reason", reason);
    view.put("tail", Value::Unseen);
    Ok(())
}

fn show_app(view: &mut View, bytes: &[u8], body: Option<usize>) {
    view.number("ssrc", word(&bytes[4..]));
    view.bytes("name", &bytes[8..12]);
    match body.and_then(|body| bytes.get(12..body)) {
        Some(data) => view.bytes("data", data),
        None => view.put("data", Value::Panic),
    }
}

/// Row 3: the Rust reads chunks to the end, whatever the count.
fn show_sdes(view: &mut View, body: &[u8], rows: Rows) -> Answer<()> {
    let count = usize::from(body[0] & 31);
    let mut chunks = Vec::new();
    let mut used = 4;
    while if rows.has(3) {
        used < body.len()
    } else {
        chunks.len() < count
    } {
        let chunk = read_chunk(&body[used..], rows)?;
        used += chunk.used;
        chunks.push(chunk);
    }
    if used < body.len() {
        return Err(Refusal::too_large(used, body.len()));
    }
    view.count("chunks", chunks.len());
    for chunk in &chunks {
        chunk.show(view, rows);
    }
    Ok(())
}

struct ChunkSeen<'a> {
    ssrc: u32,
    items: Vec<ItemSeen<'a>>,
    used: usize,
}

fn read_chunk(bytes: &[u8], rows: Rows) -> Answer<ChunkSeen<'_>> {
    if bytes.len() < 4 {
        return Err(Refusal::truncated(4, bytes.len()));
    }
    let mut items = Vec::new();
    let mut at = 4;
    while at < bytes.len() && bytes[at] != 0 {
        let item = read_item(&bytes[at..], rows)?;
        at += item.bytes.len();
        items.push(item);
    }
    Ok(ChunkSeen {
        ssrc: word(bytes),
        items,
        used: chunk_end(bytes, at, rows)?,
    })
}

/// Row 2: the Rust takes all zeros that follow. Row 3: it takes a chunk that
/// ends on a boundary without any.
fn chunk_end(bytes: &[u8], at: usize, rows: Rows) -> Answer<usize> {
    if at == bytes.len() && at.is_multiple_of(4) && rows.has(3) {
        return Ok(at);
    }
    let boundary = (at / 4 + 1) * 4;
    let zeros = bytes[at..].iter().take_while(|byte| **byte == 0).count();
    let end = at + zeros;
    if end < boundary {
        return Err(Refusal::truncated(boundary, end));
    }
    if !rows.has(2) {
        return Ok(boundary);
    }
    if !end.is_multiple_of(4) {
        return Err(Refusal::truncated(end.next_multiple_of(4), end));
    }
    Ok(end)
}

impl ChunkSeen<'_> {
    /// Row 8: the Rust's length leaves out item headers and the closing zero.
    fn show(&self, view: &mut View, rows: Rows) {
        view.number("chunk_ssrc", self.ssrc);
        let values: usize = self.items.iter().map(|item| item.bytes.len() - 2).sum();
        if rows.has(8) {
            view.count("chunk_length", (4 + values).next_multiple_of(4));
        } else {
            view.count("chunk_length", self.used);
        }
        view.count("items", self.items.len());
        for item in &self.items {
            item.show(view);
        }
    }
}

struct ItemSeen<'a> {
    bytes: &'a [u8],
}

/// Row 4: the Rust wants 4 bytes. Row 5: it measures the prefix against all
/// bytes left.
fn read_item(bytes: &[u8], rows: Rows) -> Answer<ItemSeen<'_>> {
    let left = bytes.len();
    let least = if rows.has(4) { 4 } else { 2 };
    if left < least {
        return Err(Refusal::truncated(4, left));
    }
    let length = usize::from(bytes[1]);
    if 2 + length > left {
        return Err(Refusal::truncated(2 + length, left));
    }
    if bytes[0] == PRIV {
        if length == 0 {
            return Err(Refusal::truncated(3, 2));
        }
        let prefix = usize::from(bytes[2]);
        let room = if rows.has(5) { left - 3 } else { length - 1 };
        if prefix > room {
            return Err(Refusal::prefix_past_item(prefix, length - 1));
        }
    }
    Ok(ItemSeen {
        bytes: &bytes[..2 + length],
    })
}

impl ItemSeen<'_> {
    fn prefix_length(&self) -> usize {
        usize::from(self.bytes[2])
    }

    /// A part of the item; the Rust panics where the item does not have it.
    fn part(&self, from: usize, to: usize) -> Value {
        match self.bytes.get(from..to) {
            Some(part) => Value::Bytes(part.to_vec()),
            None => Value::Panic,
        }
    }

    fn show(&self, view: &mut View) {
        view.number("item_type", self.bytes[0]);
        view.number("item_length", self.bytes[1]);
        let mut value = 2;
        if self.bytes[0] == PRIV {
            value = 3 + self.prefix_length();
            view.count("prefix_length", self.prefix_length());
            view.put("prefix", self.part(3, value));
        }
        view.put("value", self.part(value, self.bytes.len()));
    }
}

const BLOCK_FIELDS: usize = 7;

/// The part of that index of a list in a view, or 25.
fn part_at(packet: View, list: &str, fields: usize, index: u64) -> View {
    let Some(at) = packet.fields.iter().position(|(name, _)| *name == list) else {
        return packet;
    };
    let Value::Number(count) = packet.fields[at].1 else {
        return packet;
    };
    if i128::from(index) >= count {
        return View::refused(Refusal::NOTHING_LEFT);
    }
    let start = at + 1 + index as usize * fields;
    View {
        fields: packet.fields[start..start + fields].to_vec(),
        ..packet
    }
}

// ---- writing

fn write_packet(given: &Given, before: &[u8], rows: Rows) -> View {
    let bytes = before_limit(size(&allowed(given, rows)))
        .map_err(|refusal| loss_limit(refusal, rows))
        .map(|()| layout(&written_packet(given)))
        .and_then(|bytes| limited(bytes, 262_144, rows));
    let mut view = put(bytes, before);
    if rows.has(6) {
        if let Given::Bye {
            reason, padding, ..
        } = given
        {
            pad_at_reason_end(&mut view, before, reason.len(), *padding as usize);
        }
    }
    view
}

fn write_chunk(lists: &ChunkLists, before: &[u8], rows: Rows) -> View {
    let mut checked = lists.clone();
    without_zero_type(&mut checked.items, rows);
    let bytes = before_limit(size_of_chunk(&checked))
        .and_then(|()| lists.items.split())
        .map(|items| {
            layout_chunk(&Chunk {
                ssrc: lists.ssrc,
                items,
            })
        })
        .and_then(|bytes| limited(bytes, 262_140, rows));
    put(bytes, before)
}

fn write_item(item: &Item, before: &[u8], rows: Rows) -> View {
    let mut checked = item.clone();
    if rows.has(9) && checked.item_type == 0 {
        checked.item_type = OTHER_TYPE;
    }
    put(size_of_item(&checked).map(|_| layout_item(item)), before)
}

/// The refusals that come before 22.
fn before_limit(size: Answer<u64>) -> Answer<()> {
    match size {
        Ok(_) | Err(Refusal::OVERSIZED) => Ok(()),
        Err(refusal) => Err(refusal),
    }
}

/// Row 7: the Rust writes what is too large, with a length field that wraps.
fn limited(bytes: Vec<u8>, limit: usize, rows: Rows) -> Answer<Vec<u8>> {
    if bytes.len() > limit && !rows.has(7) {
        return Err(Refusal::OVERSIZED);
    }
    Ok(bytes)
}

/// An item type with the limits that the Rust has for type 0.
const OTHER_TYPE: u8 = 2;

/// The packet with what the Rust allows put for what is refused here.
fn allowed(given: &Given, rows: Rows) -> Given {
    let mut given = given.clone();
    match &mut given {
        Given::Sdes { lists, .. } => without_zero_type(&mut lists.items, rows),
        Given::Report { blocks, .. } if rows.has(10) => within_range(&mut blocks.losses),
        _ => {}
    }
    given
}

/// The Rust's greatest loss.
const UNSIGNED_MOST: i32 = 16_777_215;

/// Row 10: the Rust writes a loss up to 16,777,215. The number less 2^24 is in the
/// range here.
fn within_range(losses: &mut [i32]) {
    for loss in losses {
        if (LOSS_MOST + 1..=UNSIGNED_MOST).contains(loss) {
            *loss -= UNSIGNED_MOST + 1;
        }
    }
}

/// Row 10: the Rust names its own limit.
fn loss_limit(refusal: Refusal, rows: Rows) -> Refusal {
    match refusal.number {
        17 if rows.has(10) => Refusal {
            second: UNSIGNED_MOST as u64,
            ..refusal
        },
        _ => refusal,
    }
}

/// Row 9: the Rust takes item type 0 as any other.
fn without_zero_type(items: &mut ItemLists, rows: Rows) {
    if rows.has(9) {
        for item_type in &mut items.types {
            if *item_type == 0 {
                *item_type = OTHER_TYPE;
            }
        }
    }
}

fn put(bytes: Answer<Vec<u8>>, before: &[u8]) -> View {
    let mut buffer = before.to_vec();
    let size = bytes.as_ref().map(Vec::len).map_err(|refusal| *refusal);
    let answer = bytes.and_then(|bytes| {
        if buffer.len() < bytes.len() {
            return Err(Refusal::output_too_small(bytes.len() as u64));
        }
        buffer[..bytes.len()].copy_from_slice(&bytes);
        Ok(bytes.len() as u64)
    });
    let mut view = View::of_answer(answer, |view, size| view.number("written", size));
    let size = size.map_or_else(Value::Refused, |size| Value::Number(size as i128));
    view.put("size", size);
    view.bytes("buffer", &buffer);
    view
}

/// Row 6: the Rust writes a BYE's padding from the reason's end on, and leaves
/// the last bytes as they were.
fn pad_at_reason_end(view: &mut View, before: &[u8], reason: usize, padding: usize) {
    let Some((_, Value::Number(size))) = view.fields.iter().find(|(name, _)| *name == "written")
    else {
        return;
    };
    let size = *size as usize;
    let Some((_, Value::Bytes(buffer))) = view.fields.last_mut() else {
        return;
    };
    let gap = if reason == 0 { 0 } else { 3 - reason % 4 };
    if padding > 0 && gap > 0 {
        let end = size - gap;
        let boundary = size - padding;
        buffer[boundary..size].copy_from_slice(&before[boundary..size]);
        buffer[boundary - gap..end].fill(0);
        buffer[end - 1] = padding as u8;
    }
}
