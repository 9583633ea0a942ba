//! The crate rtcp-types as a side: `parse` of each type with every accessor,
//! `write_into` of each builder. A panic is a value like any other.

use crate::operation::Operation;
use crate::side::Side;
use crate::view::{Value, Verdict, View};
use model::{BlockLists, ChunkLists, Given, Item, ItemLists, Kind, Refusal, LOSS_LEAST, LOSS_MOST};
use rtcp_types::prelude::*;
use rtcp_types::sdes::{parse_chunk, parse_item};
use rtcp_types::*;
use std::cell::Cell;
use std::panic::{catch_unwind, set_hook, take_hook, AssertUnwindSafe};
use std::sync::Once;

pub struct Rust;

impl Side for Rust {
    fn name(&self) -> &'static str {
        "rust"
    }

    fn view(&self, operation: &Operation) -> Option<View> {
        Some(match operation {
            Operation::ReadAs(kind, bytes) => match kind {
                Kind::Sr => parsed(SenderReport::parse(bytes), show_sr),
                Kind::Rr => parsed(ReceiverReport::parse(bytes), show_rr),
                Kind::Sdes => parsed(Sdes::parse(bytes), show_sdes),
                Kind::Bye => parsed(Bye::parse(bytes), show_bye),
                Kind::App => parsed(App::parse(bytes), show_app),
            },
            Operation::ReadBlock(bytes) => parsed(ReportBlock::parse(bytes), show_block),
            Operation::ReadBlockAt(kind, bytes, index) => {
                let index = usize::try_from(*index).ok()?;
                match kind {
                    Kind::Sr => parsed_part(
                        SenderReport::parse(bytes),
                        |report, show| show(report.report_blocks().nth(index)),
                        show_block,
                    ),
                    _ => parsed_part(
                        ReceiverReport::parse(bytes),
                        |report, show| show(report.report_blocks().nth(index)),
                        show_block,
                    ),
                }
            }
            Operation::ReadSourceAt(bytes, index) => {
                let index = usize::try_from(*index).ok()?;
                parsed_part(
                    Bye::parse(bytes),
                    |bye, show| show(bye.ssrcs().nth(index)),
                    |view, source| view.number("source", *source),
                )
            }
            Operation::ReadItem(bytes) => parsed(parse_item(bytes), |view, (item, used)| {
                show_item(view, item);
                view.count("used", *used);
            }),
            Operation::ReadPrefix(bytes) => match parse_item(bytes) {
                // `priv_prefix` panics on other types: 30 in the model.
                Ok((item, _)) if item.type_() != SdesItem::PRIV => {
                    match panics(|| item.priv_prefix().len()) {
                        true => View::refused(Refusal::not_priv(item.type_())),
                        false => View::accepted(),
                    }
                }
                parse => parsed(parse, |view, (item, _)| {
                    view.put("prefix", bytes_or_panic(|| item.priv_prefix()));
                }),
            },
            Operation::ReadChunk(bytes) => parsed(parse_chunk(bytes), |view, (chunk, used)| {
                show_chunk(view, chunk);
                view.count("used", *used);
            }),
            Operation::Write(given, before) => return write_packet(given, before),
            Operation::WriteChunk(lists, before) => return write_chunk(lists, before),
            Operation::WriteItem(item, before) => return write_item(item, before),
            _ => return None,
        })
    }
}

// ---- panics

thread_local! {
    static QUIET: Cell<bool> = const { Cell::new(false) };
}

/// Keeps panics of the crate from printing; those of other code still do.
fn quiet_panics() {
    static ONCE: Once = Once::new();
    ONCE.call_once(|| {
        let print = take_hook();
        set_hook(Box::new(move |info| {
            if !QUIET.get() {
                print(info);
            }
        }));
    });
}

fn caught<T>(call: impl FnOnce() -> T) -> Option<T> {
    quiet_panics();
    QUIET.set(true);
    let result = catch_unwind(AssertUnwindSafe(call)).ok();
    QUIET.set(false);
    result
}

fn panics<T>(call: impl FnOnce() -> T) -> bool {
    caught(call).is_none()
}

fn number_or_panic(call: impl FnOnce() -> u64) -> Value {
    caught(call).map_or(Value::Panic, |number| Value::Number(number.into()))
}

fn bytes_or_panic<'a>(call: impl FnOnce() -> &'a [u8]) -> Value {
    caught(call).map_or(Value::Panic, |bytes| Value::Bytes(bytes.to_vec()))
}

// ---- refusals

fn parse_refusal(error: RtcpParseError) -> Refusal {
    match error {
        RtcpParseError::UnsupportedVersion(version) => Refusal::new(1, version.into(), 0),
        RtcpParseError::Truncated { expected, actual } => {
            Refusal::new(2, expected as u64, actual as u64)
        }
        RtcpParseError::TooLarge { expected, actual } => {
            Refusal::new(3, expected as u64, actual as u64)
        }
        RtcpParseError::InvalidPadding => Refusal::bare(4),
        RtcpParseError::SdesPrivPrefixTooLarge { len, available } => {
            Refusal::new(5, len as u64, available.into())
        }
        RtcpParseError::PacketTypeMismatch { actual, requested } => {
            Refusal::new(6, actual.into(), requested.into())
        }
        other => panic!("an error without a refusal number: {other}"),
    }
}

fn write_refusal(error: RtcpWriteError) -> Refusal {
    match error {
        RtcpWriteError::OutputTooSmall(size) => Refusal::new(10, size as u64, 0),
        RtcpWriteError::InvalidPadding { padding } => Refusal::new(11, padding.into(), 0),
        RtcpWriteError::AppSubtypeOutOfRange { subtype, max } => {
            Refusal::new(12, subtype.into(), max.into())
        }
        RtcpWriteError::InvalidName => Refusal::bare(13),
        RtcpWriteError::DataLen32bitMultiple(len) => Refusal::new(14, len as u64, 0),
        RtcpWriteError::TooManySources { count, max } => Refusal::new(15, count as u64, max.into()),
        RtcpWriteError::ReasonLenTooLarge { len, max } => Refusal::new(16, len as u64, max.into()),
        RtcpWriteError::CumulativeLostTooLarge { value, max } => {
            Refusal::new(17, value.into(), max.into())
        }
        RtcpWriteError::TooManyReportBlocks { count, max } => {
            Refusal::new(18, count as u64, max.into())
        }
        RtcpWriteError::TooManySdesChunks { count, max } => {
            Refusal::new(19, count as u64, max.into())
        }
        RtcpWriteError::SdesValueTooLarge { len, max } => Refusal::new(20, len as u64, max.into()),
        RtcpWriteError::SdesPrivPrefixTooLarge { len, max } => {
            Refusal::new(21, len as u64, max.into())
        }
        other => panic!("an error without a refusal number: {other}"),
    }
}

// ---- reading

fn parsed<T>(parse: Result<T, RtcpParseError>, show: impl FnOnce(&mut View, &T)) -> View {
    match parse {
        Ok(value) => {
            let mut view = View::accepted();
            show(&mut view, &value);
            view
        }
        Err(error) => View::refused(parse_refusal(error)),
    }
}

/// A part that an iterator may not have: 25 in the model.
fn parsed_part<T, P>(
    parse: Result<T, RtcpParseError>,
    part: impl FnOnce(&T, &mut dyn FnMut(Option<P>)),
    show: impl Fn(&mut View, &P),
) -> View {
    let value = match parse {
        Ok(value) => value,
        Err(error) => return View::refused(parse_refusal(error)),
    };
    let mut view = View::refused(Refusal::NOTHING_LEFT);
    part(&value, &mut |found| {
        if let Some(found) = found {
            view = View::accepted();
            show(&mut view, &found);
        }
    });
    view
}

fn show_header<'a>(view: &mut View, packet: &impl RtcpPacketParser<'a>, padding: Option<u8>) {
    view.number("type", packet.type_());
    view.number("low", packet.count());
    view.count("length", packet.length());
    match padding {
        None => view.put("padding", Value::Nothing),
        Some(count) => view.number("padding", count),
    }
}

fn show_blocks<'a>(view: &mut View, blocks: impl Iterator<Item = ReportBlock<'a>>) {
    let Some(blocks) = caught(|| blocks.collect::<Vec<_>>()) else {
        return view.put("blocks", Value::Panic);
    };
    view.count("blocks", blocks.len());
    for block in &blocks {
        show_block(view, block);
    }
}

fn show_block(view: &mut View, block: &ReportBlock) {
    let mut put = |name, call: &dyn Fn() -> u64| view.put(name, number_or_panic(call));
    put("block_ssrc", &|| block.ssrc().into());
    put("fraction_lost", &|| block.fraction_lost().into());
    put("cumulative_lost", &|| block.cumulative_lost().into());
    put("extended_sequence", &|| {
        block.extended_sequence_number().into()
    });
    put("jitter", &|| block.interarrival_jitter().into());
    put("last_sr", &|| block.last_sender_report_timestamp().into());
    put("delay", &|| {
        block.delay_since_last_sender_report_timestamp().into()
    });
}

fn show_sr(view: &mut View, report: &SenderReport) {
    show_header(view, report, report.padding());
    view.number("ssrc", report.ssrc());
    view.number("ntp_time", report.ntp_timestamp());
    view.number("rtp_time", report.rtp_timestamp());
    view.number("packet_count", report.packet_count());
    view.number("octet_count", report.octet_count());
    show_blocks(view, report.report_blocks());
    show_unseen(view, &["extension"]);
}

fn show_rr(view: &mut View, report: &ReceiverReport) {
    show_header(view, report, report.padding());
    view.number("ssrc", report.ssrc());
    show_blocks(view, report.report_blocks());
    show_unseen(view, &["extension"]);
}

fn show_sdes(view: &mut View, sdes: &Sdes) {
    show_header(view, sdes, sdes.padding());
    view.count("chunks", sdes.chunks().count());
    for chunk in sdes.chunks() {
        show_chunk(view, chunk);
    }
    show_unseen(view, &[]);
}

fn show_chunk(view: &mut View, chunk: &SdesChunk) {
    view.number("chunk_ssrc", chunk.ssrc());
    view.count("chunk_length", chunk.length());
    view.count("items", chunk.items().count());
    for item in chunk.items() {
        show_item(view, item);
    }
}

fn show_item(view: &mut View, item: &SdesItem) {
    view.number("item_type", item.type_());
    view.count("item_length", item.length());
    if item.type_() == SdesItem::PRIV {
        view.put(
            "prefix_length",
            number_or_panic(|| item.priv_prefix_len().into()),
        );
        view.put("prefix", bytes_or_panic(|| item.priv_prefix()));
    }
    view.put("value", bytes_or_panic(|| item.value()));
}

fn show_bye(view: &mut View, bye: &Bye) {
    show_header(view, bye, bye.padding());
    view.count("sources", bye.ssrcs().count());
    for source in bye.ssrcs() {
        view.number("source", source);
    }
    match caught(|| bye.reason().map(<[u8]>::to_vec)) {
        None => view.put("reason", Value::Panic),
        Some(None) => view.put("reason", Value::Nothing),
        Some(Some(reason)) => view.bytes("reason", &reason),
    }
    show_unseen(view, &["tail"]);
}

fn show_app(view: &mut View, app: &App) {
    show_header(view, app, app.padding());
    view.number("ssrc", app.ssrc());
    view.bytes("name", &app.name());
    view.put("data", bytes_or_panic(|| app.data()));
    show_unseen(view, &[]);
}

/// The crate has no accessor for these.
fn show_unseen(view: &mut View, names: &[&'static str]) {
    for name in names {
        view.put(name, Value::Unseen);
    }
    view.put("padding_bytes", Value::Unseen);
}

// ---- writing

/// Nothing where an argument does not fit the builder's type.
fn write_packet(given: &Given, before: &[u8]) -> Option<View> {
    let padding = u8::try_from(given.padding()).ok()?;
    match given {
        Given::Report {
            ssrc,
            sender: Some(sender),
            blocks,
            ..
        } => {
            let builder = SenderReport::builder(*ssrc)
                .padding(padding)
                .ntp_timestamp(sender.ntp_time)
                .rtp_timestamp(sender.rtp_time)
                .packet_count(sender.packet_count)
                .octet_count(sender.octet_count);
            let builder = block_builders(blocks)?
                .into_iter()
                .fold(builder, SenderReportBuilder::add_report_block);
            Some(written_packet(&builder, before))
        }
        Given::Report {
            ssrc,
            sender: None,
            blocks,
            ..
        } => {
            let builder = block_builders(blocks)?.into_iter().fold(
                ReceiverReport::builder(*ssrc).padding(padding),
                ReceiverReportBuilder::add_report_block,
            );
            Some(written_packet(&builder, before))
        }
        Given::Sdes { lists, .. } => {
            let chunks = lists.split().ok()?;
            let mut builder = Sdes::builder().padding(padding);
            for (ssrc, items) in &chunks {
                builder = builder.add_chunk(chunk_builder(*ssrc, items)?);
            }
            Some(written_packet(&builder, before))
        }
        Given::Bye {
            sources, reason, ..
        } => {
            let reason = std::str::from_utf8(reason).ok()?;
            let builder = sources
                .iter()
                .copied()
                .fold(Bye::builder().padding(padding), ByeBuilder::add_source)
                .reason(reason);
            Some(written_packet(&builder, before))
        }
        Given::App {
            subtype,
            ssrc,
            name,
            data,
            ..
        } => {
            let subtype = u8::try_from(*subtype).ok()?;
            let name = std::str::from_utf8(name).ok()?;
            let builder = App::builder(*ssrc, name)
                .padding(padding)
                .subtype(subtype)
                .data(data);
            Some(written_packet(&builder, before))
        }
    }
}

fn block_builders(lists: &BlockLists) -> Option<Vec<ReportBlockBuilder>> {
    lists.split().ok()?.iter().map(block_builder).collect()
}

fn block_builder(block: &model::Block) -> Option<ReportBlockBuilder> {
    let builder = ReportBlock::builder(block.ssrc)
        .fraction_lost(block.fraction_lost)
        .cumulative_lost(unsigned(block.cumulative_lost)?)
        .extended_sequence_number(block.extended_sequence)
        .interarrival_jitter(block.jitter)
        .last_sender_report_timestamp(block.last_sr)
        .delay_since_last_sender_report_timestamp(block.delay);
    Some(builder)
}

/// A loss as the crate takes it: its 24 bits where they stand for it here, else the
/// number itself. A number below that range has no such form.
fn unsigned(loss: i32) -> Option<u32> {
    match loss {
        LOSS_LEAST..=LOSS_MOST => Some(loss as u32 & 0xFF_FFFF),
        _ => u32::try_from(loss).ok(),
    }
}

fn chunk_builder(ssrc: u32, items: &[Item]) -> Option<SdesChunkBuilder<'_>> {
    let mut builder = SdesChunk::builder(ssrc);
    for item in items {
        builder = builder.add_item(item_builder(item)?);
    }
    Some(builder)
}

fn item_builder(item: &Item) -> Option<SdesItemBuilder<'_>> {
    let value = std::str::from_utf8(&item.value).ok()?;
    Some(SdesItem::builder(item.item_type, value).prefix(&item.prefix[..]))
}

fn write_chunk(lists: &ChunkLists, before: &[u8]) -> Option<View> {
    let items = ItemLists::split(&lists.items).ok()?;
    let builder = chunk_builder(lists.ssrc, &items)?;
    Some(written(before, Value::Unseen, |buffer| {
        builder.write_into(buffer)
    }))
}

fn write_item(item: &Item, before: &[u8]) -> Option<View> {
    let builder = item_builder(item)?;
    Some(written(before, Value::Unseen, |buffer| {
        builder.write_into(buffer)
    }))
}

fn written_packet(builder: &impl RtcpPacketWriter, before: &[u8]) -> View {
    let size = match caught(|| builder.calculate_size()) {
        None => Value::Panic,
        Some(Ok(size)) => Value::Number(size as i128),
        Some(Err(error)) => Value::Refused(write_refusal(error)),
    };
    written(before, size, |buffer| builder.write_into(buffer))
}

fn written(
    before: &[u8],
    size: Value,
    write: impl FnOnce(&mut [u8]) -> Result<usize, RtcpWriteError>,
) -> View {
    let mut buffer = before.to_vec();
    let mut view = View::accepted();
    match caught(|| write(&mut buffer)) {
        None => view.verdict = Verdict::Panicked,
        Some(Ok(size)) => view.count("written", size),
        Some(Err(error)) => view.verdict = Verdict::Refused(write_refusal(error)),
    }
    view.put("size", size);
    view.bytes("buffer", &buffer);
    view
}
