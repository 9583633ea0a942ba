//! The fields of a packet, one a line.

use crate::text::{count, escaped, hex};
use crate::time::utc;
use bokyjave::prelude::*;
use bokyjave::{
    App, Bye, Packet, ReceiverReport, ReportBlock, Sdes, SdesItem, SenderReport, Unknown,
};
use std::io::{self, Write};

pub fn packet(out: &mut impl Write, number: usize, packet: &Packet) -> io::Result<()> {
    let (kind, type_) = (name(packet), packet.type_());
    let len = count(packet.length(), "byte");
    writeln!(out, "  packet {number}: {kind}, type {type_}, {len}")?;
    match packet {
        Packet::Sr(sr) => sender_report(out, sr)?,
        Packet::Rr(rr) => receiver_report(out, rr)?,
        Packet::Sdes(sdes) => source_description(out, sdes)?,
        Packet::Bye(bye) => goodbye(out, bye)?,
        Packet::App(app) => application_defined(out, app)?,
        Packet::Unknown(unknown) => other(out, unknown)?,
    }
    bytes(out, "padding", packet.padding_bytes())
}

/// The short name of packets of other types than the five.
pub const OTHER: &str = "other";

/// The short name of a packet's kind.
pub fn short_name(packet: &Packet) -> &'static str {
    match packet {
        Packet::Sr(_) => "SR",
        Packet::Rr(_) => "RR",
        Packet::Sdes(_) => "SDES",
        Packet::Bye(_) => "BYE",
        Packet::App(_) => "APP",
        Packet::Unknown(_) => OTHER,
    }
}

/// Whether a packet names a source: as its sender, or in a block, chunk or list.
pub fn names(packet: &Packet, ssrc: u32) -> bool {
    let is_it = |block: ReportBlock| block.ssrc() == ssrc;
    match packet {
        Packet::Sr(sr) => sr.ssrc() == ssrc || sr.report_blocks().any(is_it),
        Packet::Rr(rr) => rr.ssrc() == ssrc || rr.report_blocks().any(is_it),
        Packet::Sdes(sdes) => sdes.chunks().any(|chunk| chunk.ssrc() == ssrc),
        Packet::Bye(bye) => bye.ssrcs().any(|it| it == ssrc),
        Packet::App(app) => app.ssrc() == ssrc,
        // Feedback and extended reports start with their sender and a source.
        Packet::Unknown(other) => other
            .body()
            .chunks(4)
            .take(2)
            .any(|it| it == ssrc.to_be_bytes()),
    }
}

fn name(packet: &Packet) -> &'static str {
    match packet {
        Packet::Sr(_) => "sender report (SR)",
        Packet::Rr(_) => "receiver report (RR)",
        Packet::Sdes(_) => "source description (SDES)",
        Packet::Bye(_) => "goodbye (BYE)",
        Packet::App(_) => "application-defined (APP)",
        Packet::Unknown(_) => match packet.type_() {
            205 => "transport layer feedback (RFC 4585)",
            206 => "payload-specific feedback (RFC 4585)",
            207 => "extended report (RFC 3611)",
            _ => "another type",
        },
    }
}

/// As many bytes of a field are printed; `--json` prints all.
const MOST: usize = 256;

/// A line with bytes, where there are any.
fn bytes(out: &mut impl Write, field: &str, bytes: &[u8]) -> io::Result<()> {
    if bytes.is_empty() {
        return Ok(());
    }
    let len = count(bytes.len(), "byte");
    let shown = hex(&bytes[..bytes.len().min(MOST)]);
    match bytes.len().saturating_sub(MOST) {
        0 => writeln!(out, "    {field}: {len}, {shown}"),
        more => writeln!(out, "    {field}: {len}, {shown} and {more} bytes more"),
    }
}

fn sender_report(out: &mut impl Write, sr: &SenderReport) -> io::Result<()> {
    writeln!(out, "    SSRC of sender: {:08x}", sr.ssrc())?;
    writeln!(out, "    NTP timestamp: {}", ntp(sr.ntp_timestamp()))?;
    writeln!(out, "    RTP timestamp: {}", sr.rtp_timestamp())?;
    writeln!(out, "    sender's packet count: {}", sr.packet_count())?;
    writeln!(out, "    sender's octet count: {}", sr.octet_count())?;
    report_blocks(out, sr.report_blocks())?;
    bytes(out, "profile-specific extension", sr.extension())
}

/// Seconds and their 2^32nd parts. Until 2036 the high bit tells seconds from
/// 1900 on from those of a clock of the sender's own (RFC 3550 6.4.1).
fn ntp(timestamp: u64) -> String {
    if timestamp == 0 {
        return "0 (the sender has no clock)".into();
    }
    let (seconds, part) = (timestamp >> 32, timestamp & 0xFFFF_FFFF);
    let milliseconds = (part * 1000) >> 32;
    let time = match seconds >> 31 {
        0 => format!("{seconds}.{milliseconds:03} s of the sender's own clock"),
        _ => {
            let from_1970 = seconds as i64 - 2_208_988_800;
            format!("{}.{milliseconds:03} UTC", utc(from_1970))
        }
    };
    format!("{seconds:08x}.{part:08x} ({time})")
}

fn receiver_report(out: &mut impl Write, rr: &ReceiverReport) -> io::Result<()> {
    writeln!(out, "    SSRC of sender: {:08x}", rr.ssrc())?;
    report_blocks(out, rr.report_blocks())?;
    bytes(out, "profile-specific extension", rr.extension())
}

fn report_blocks(
    out: &mut impl Write,
    blocks: impl Iterator<Item = ReportBlock>,
) -> io::Result<()> {
    for (index, block) in blocks.enumerate() {
        writeln!(
            out,
            "    block {} about SSRC {:08x}",
            index + 1,
            block.ssrc()
        )?;
        report_block(out, &block)?;
    }
    Ok(())
}

fn report_block(out: &mut impl Write, block: &ReportBlock) -> io::Result<()> {
    let sequence = block.extended_sequence_number();
    let (cycles, low) = (sequence >> 16, sequence & 0xFFFF);
    let last = match block.last_sender_report_timestamp() {
        0 => "0 (none received yet)".into(),
        last => format!("{:04x}.{:04x}", last >> 16, last & 0xFFFF),
    };
    let delay = block.delay_since_last_sender_report_timestamp();
    let milliseconds = (u64::from(delay) * 1000) >> 16;
    let (seconds, milliseconds) = (milliseconds / 1000, milliseconds % 1000);
    writeln!(out, "      fraction lost: {}/256", block.fraction_lost())?;
    writeln!(
        out,
        "      cumulative number of packets lost: {}",
        block.cumulative_lost()
    )?;
    writeln!(
        out,
        "      extended highest sequence number received: {sequence} (cycle {cycles}, number {low})"
    )?;
    writeln!(
        out,
        "      interarrival jitter: {}",
        block.interarrival_jitter()
    )?;
    writeln!(out, "      last SR: {last}")?;
    writeln!(
        out,
        "      delay since last SR: {delay}/65536 s ({seconds}.{milliseconds:03} s)"
    )
}

fn source_description(out: &mut impl Write, sdes: &Sdes) -> io::Result<()> {
    for (index, chunk) in sdes.chunks().enumerate() {
        let (number, ssrc) = (index + 1, chunk.ssrc());
        let len = count(chunk.length(), "byte");
        writeln!(out, "    chunk {number} of SSRC {ssrc:08x}, {len}")?;
        for item in chunk.items() {
            writeln!(out, "      {}", source_item(&item))?;
        }
    }
    Ok(())
}

fn source_item(item: &SdesItem) -> String {
    let value = escaped(item.value());
    if let Ok(prefix) = item.priv_prefix() {
        return format!("PRIV, prefix \"{}\": \"{value}\"", escaped(prefix));
    }
    match item_name(item.type_()) {
        Some(name) => format!("{name}: \"{value}\""),
        None => format!("item type {}: \"{value}\"", item.type_()),
    }
}

/// The name of an item type that RFC 3550 has.
pub fn item_name(type_: u8) -> Option<&'static str> {
    Some(match type_ {
        SdesItem::CNAME => "CNAME",
        SdesItem::NAME => "NAME",
        SdesItem::EMAIL => "EMAIL",
        SdesItem::PHONE => "PHONE",
        SdesItem::LOC => "LOC",
        SdesItem::TOOL => "TOOL",
        SdesItem::NOTE => "NOTE",
        SdesItem::PRIV => "PRIV",
        _ => return None,
    })
}

fn goodbye(out: &mut impl Write, bye: &Bye) -> io::Result<()> {
    for (index, ssrc) in bye.ssrcs().enumerate() {
        writeln!(out, "    source {}: SSRC {ssrc:08x}", index + 1)?;
    }
    if let Some(reason) = bye.reason() {
        writeln!(out, "    reason: \"{}\"", escaped(reason))?;
    }
    bytes(out, "after the reason", bye.tail())
}

fn application_defined(out: &mut impl Write, app: &App) -> io::Result<()> {
    writeln!(out, "    subtype: {}", app.subtype())?;
    writeln!(out, "    SSRC: {:08x}", app.ssrc())?;
    writeln!(out, "    name: \"{}\"", escaped(&app.name()))?;
    bytes(out, "data", app.data())
}

fn other(out: &mut impl Write, unknown: &Unknown) -> io::Result<()> {
    writeln!(out, "    low 5 bits: {}", unknown.count())?;
    bytes(out, "body", unknown.body())
}
