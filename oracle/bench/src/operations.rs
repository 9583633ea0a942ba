//! The operations, and the loop that is measured. bench/bokyjave compiles this file too, over the crate in rust/ under the name of rtcp-types: what
//! takes a type that differs there is a macro, a lookup is each side's own, and a loss, which has a sign there, is cast.

use crate::looked_up;
use crate::whole::{Compound, CompoundBuilder, Packet};
use rtcp_types::prelude::*;
use rtcp_types::*;
use std::hint::black_box;
use std::time::Instant;

const BATCHES: usize = 63;
const BATCH: u64 = 200;

/// The seven numbers of a block.
macro_rules! numbers {
    ($block:expr) => {
        [
            $block.ssrc(),
            $block.fraction_lost().into(),
            $block.cumulative_lost() as u32,
            $block.extended_sequence_number(),
            $block.interarrival_jitter(),
            $block.last_sender_report_timestamp(),
            $block.delay_since_last_sender_report_timestamp(),
        ]
    };
}

/// Of each block of a report, added up.
macro_rules! sum_of_blocks {
    ($report:expr) => {
        $report.report_blocks().fold(0, |sum, block| {
            let numbers: [u32; 7] = numbers!(block);
            numbers
                .iter()
                .fold(sum, |sum, number| add(sum, u64::from(*number)))
        })
    };
}

/// The size that a builder writes, 0 where it refuses.
macro_rules! write {
    ($builder:expr, $out:expr) => {
        match black_box($builder).write_into(black_box($out)) {
            Ok(size) => size as u64,
            Err(_) => 0,
        }
    };
}

/// The numbers of an input, for writing.
#[derive(Default)]
struct Fields {
    ssrc: u32,
    ntp: u64,
    rtp: u32,
    packets: u32,
    octets: u32,
    blocks: Vec<[u32; 7]>,
    chunks: Vec<Chunk>,
    /// Of the SDES packet.
    padding: u8,
}

struct Chunk {
    ssrc: u32,
    items: Vec<(u8, Vec<u8>, String)>,
}

/// The exit status.
pub fn main() -> u8 {
    let args: Vec<String> = std::env::args().collect();
    let [_, inputs, operation, count] = args.as_slice() else {
        return 2;
    };
    let Some((verb, name)) = operation.split_once('-') else {
        return 3;
    };
    // A compound is the same datagram, written by the compound builder.
    let input = if name == "compound" { "rrsdes" } else { name };
    let Some(input) = load(inputs, input) else {
        return 2;
    };
    match read(verb, name, count, &input) {
        Some(status) => status,
        None => written(verb, name, count, &input),
    }
}

/// The exit status of an operation that reads; none where it is not one.
fn read(verb: &str, name: &str, count: &str, input: &[u8]) -> Option<u8> {
    let status = match (verb, name) {
        ("parse", "rrsdes" | "padded") => finish(count, || sum_of_compound(black_box(input))),
        ("parse", "sr31") => finish(count, || sum_of_sr(black_box(input))),
        ("parse", "sdes31" | "priv31") => finish(count, || sum_of_sdes(black_box(input))),
        ("lookup", "sdes31") => {
            let chunks = fields(input).chunks;
            let ssrcs: Vec<u32> = chunks.iter().skip(1).map(|chunk| chunk.ssrc).collect();
            finish(count, || sum_of_lookup(black_box(input), black_box(&ssrcs)))
        }
        _ => return None,
    };
    Some(status)
}

/// The exit status of an operation that writes.
fn written(verb: &str, name: &str, count: &str, input: &[u8]) -> u8 {
    let fields = fields(input);
    let mut out = [0; 1024];
    let status = match (verb, name) {
        ("write", "rrsdes" | "padded") => {
            let (rr, sdes) = (rr(&fields), sdes(&fields));
            finish(count, || write_both(&rr, &sdes, &mut out))
        }
        ("write", "sr31") => {
            let builder = sr(&fields);
            finish(count, || write!(&builder, &mut out))
        }
        ("write", "sdes31" | "priv31") => {
            let builder = sdes(&fields);
            finish(count, || write!(&builder, &mut out))
        }
        ("write", "compound") => {
            let builder = compound(&fields);
            finish(count, || write!(&builder, &mut out))
        }
        ("build", "compound") => finish(count, || write!(&compound(black_box(&fields)), &mut out)),
        ("build", "rrsdes" | "padded") => finish(count, || {
            write_both(&rr(black_box(&fields)), &sdes(black_box(&fields)), &mut out)
        }),
        ("build", "sr31") => finish(count, || write!(&sr(black_box(&fields)), &mut out)),
        ("build", "sdes31" | "priv31") => {
            finish(count, || write!(&sdes(black_box(&fields)), &mut out))
        }
        _ => return 3,
    };
    if status == 0 && out[..input.len()] != *input {
        return 4;
    }
    status
}

fn load(path: &str, name: &str) -> Option<Vec<u8>> {
    let text = std::fs::read_to_string(path).ok()?;
    let hex = text
        .lines()
        .filter_map(|line| line.split_once('\t'))
        .find(|(named, _)| *named == name)?
        .1;
    (0..hex.len() / 2)
        .map(|i| u8::from_str_radix(&hex[2 * i..2 * i + 2], 16).ok())
        .collect()
}

/// The fields of a datagram or of a lone packet.
fn fields(input: &[u8]) -> Fields {
    let mut fields = Fields::default();
    let packets: Vec<Packet> = match Packet::parse(input) {
        Ok(packet) => vec![packet],
        Err(_) => Compound::parse(input)
            .expect("a good input")
            .map(|packet| packet.expect("a good input"))
            .collect(),
    };
    for packet in packets {
        match packet {
            Packet::Rr(rr) => {
                fields.ssrc = rr.ssrc();
                fields.blocks = rr.report_blocks().map(|block| numbers!(block)).collect();
            }
            Packet::Sr(sr) => {
                fields.ssrc = sr.ssrc();
                fields.ntp = sr.ntp_timestamp();
                fields.rtp = sr.rtp_timestamp();
                fields.packets = sr.packet_count();
                fields.octets = sr.octet_count();
                fields.blocks = sr.report_blocks().map(|block| numbers!(block)).collect();
            }
            Packet::Sdes(sdes) => {
                fields.padding = sdes.padding().unwrap_or(0);
                for chunk in sdes.chunks() {
                    let items = chunk.items().map(|item| {
                        let value = item.get_value_string().expect("a good input");
                        let prefix = match item.type_() {
                            SdesItem::PRIV => prefix!(item).to_vec(),
                            _ => Vec::new(),
                        };
                        (item.type_(), prefix, value)
                    });
                    fields.chunks.push(Chunk {
                        ssrc: chunk.ssrc(),
                        items: items.collect(),
                    });
                }
            }
            _ => {}
        }
    }
    fields
}

/// The sums wrap, as those of the sides in C do.
fn add(sum: u64, number: u64) -> u64 {
    sum.wrapping_add(number)
}

fn sum_of_chunks(sdes: &Sdes<'_>) -> u64 {
    sdes.chunks().fold(0, |sum, chunk| {
        chunk
            .items()
            .fold(add(sum, chunk.ssrc().into()), |sum, item| {
                let value = item.value();
                let first = u64::from(value[0]);
                add(sum, u64::from(item.type_()) + value.len() as u64 + first)
            })
    })
}

fn sum_of_compound(input: &[u8]) -> u64 {
    let Ok(compound) = Compound::parse(input) else {
        return 0;
    };
    let mut sum = 0;
    for packet in compound {
        match packet {
            Ok(Packet::Rr(rr)) => {
                sum = add(sum, rr.ssrc().into());
                sum = add(sum, sum_of_blocks!(rr));
            }
            Ok(Packet::Sdes(sdes)) => sum = add(sum, sum_of_chunks(&sdes)),
            _ => return 0,
        }
    }
    sum
}

fn sum_of_sr(input: &[u8]) -> u64 {
    let Ok(sr) = SenderReport::parse(input) else {
        return 0;
    };
    let numbers = [
        sr.ssrc(),
        sr.rtp_timestamp(),
        sr.packet_count(),
        sr.octet_count(),
    ];
    let sum = numbers.iter().fold(sr.ntp_timestamp(), |sum, number| {
        add(sum, u64::from(*number))
    });
    add(sum, sum_of_blocks!(sr))
}

fn sum_of_sdes(input: &[u8]) -> u64 {
    match Sdes::parse(input) {
        Ok(sdes) => sum_of_chunks(&sdes),
        Err(_) => 0,
    }
}

/// The chunks that name these sources: each SSRC times the number of its chunk
/// from 1, added up.
fn sum_of_lookup(input: &[u8], ssrcs: &[u32]) -> u64 {
    match Sdes::parse(input) {
        Ok(sdes) => looked_up(&sdes, ssrcs),
        Err(_) => 0,
    }
}

fn block(numbers: &[u32; 7]) -> ReportBlockBuilder {
    ReportBlock::builder(numbers[0])
        .fraction_lost(numbers[1] as u8)
        .cumulative_lost(numbers[2] as _)
        .extended_sequence_number(numbers[3])
        .interarrival_jitter(numbers[4])
        .last_sender_report_timestamp(numbers[5])
        .delay_since_last_sender_report_timestamp(numbers[6])
}

fn rr(fields: &Fields) -> ReceiverReportBuilder {
    let report = ReceiverReport::builder(fields.ssrc);
    fields.blocks.iter().fold(report, |report, numbers| {
        report.add_report_block(block(numbers))
    })
}

fn sr(fields: &Fields) -> SenderReportBuilder {
    let report = SenderReport::builder(fields.ssrc)
        .ntp_timestamp(fields.ntp)
        .rtp_timestamp(fields.rtp)
        .packet_count(fields.packets)
        .octet_count(fields.octets);
    fields.blocks.iter().fold(report, |report, numbers| {
        report.add_report_block(block(numbers))
    })
}

fn sdes(fields: &Fields) -> SdesBuilder<'_> {
    let packet = Sdes::builder().padding(fields.padding);
    fields.chunks.iter().fold(packet, |sdes, chunk| {
        let started = SdesChunk::builder(chunk.ssrc);
        let items = chunk.items.iter();
        sdes.add_chunk(items.fold(started, |chunk, (type_, prefix, value)| {
            let item = SdesItem::builder(*type_, value);
            chunk.add_item(match *type_ {
                SdesItem::PRIV => item.prefix(&prefix[..]),
                _ => item,
            })
        }))
    })
}

fn compound(fields: &Fields) -> CompoundBuilder<'_> {
    Compound::builder()
        .add_packet(rr(fields))
        .add_packet(sdes(fields))
}

/// Packet after packet: fewer instructions than through the compound builder,
/// which asks each packet for its size twice.
fn write_both(rr: &ReceiverReportBuilder, sdes: &SdesBuilder<'_>, out: &mut [u8]) -> u64 {
    let size = write!(rr, &mut *out);
    size + write!(sdes, &mut out[size as usize..])
}

/// Runs as the arguments say, and prints. By reference, as in C: the loop is not
/// to be compiled together with what it runs.
fn finish(count: &str, mut run: impl FnMut() -> u64) -> u8 {
    let run: &mut dyn FnMut() -> u64 = black_box(&mut run);
    if count == "time" {
        println!("{:.2}", best(run));
        return 0;
    }
    let Ok(n) = count.parse::<u64>() else {
        return 2;
    };
    let once = run();
    if once == 0 || repeat(run, n) != once.wrapping_mul(n) {
        return 1;
    }
    println!("{once}");
    0
}

fn repeat(run: &mut dyn FnMut() -> u64, n: u64) -> u64 {
    (0..n).fold(0, |total, _| add(total, run()))
}

/// Nanoseconds of one run, in the best of the batches.
fn best(run: &mut dyn FnMut() -> u64) -> f64 {
    let batch = |_| {
        let start = Instant::now();
        black_box(repeat(run, BATCH));
        start.elapsed().as_nanos() as f64 / BATCH as f64
    };
    (0..BATCHES).map(batch).fold(f64::INFINITY, f64::min)
}
