//! Real datagrams are read, and written again as the same bytes.
//!
//! They are in `samples/captures`, or in the folder that RTCP_CAPTURES names, a
//! relative path counted from the project's root.

use bokyjave::{
    Bye, Compound, CompoundBuilder, Packet, ReceiverReport, ReportBlock, ReportBlockBuilder, Sdes,
    SdesChunk, SdesItem, SenderReport,
};
use std::path::Path;

/// The lines of all files: the program, and the datagram.
fn captures() -> Vec<(String, Vec<u8>)> {
    let root = Path::new(env!("CARGO_MANIFEST_DIR")).join("..");
    let named = std::env::var_os("RTCP_CAPTURES").unwrap_or_else(|| "samples/captures".into());
    let folder = std::fs::read_dir(root.join(named)).expect("a folder");
    let mut files: Vec<_> = folder.map(|file| file.expect("a file").path()).collect();
    files.retain(|file| file.extension().is_some_and(|end| end == "hex"));
    files
        .iter()
        .flat_map(|file| {
            let text = std::fs::read_to_string(file).expect("text");
            text.lines().map(line).collect::<Vec<_>>()
        })
        .collect()
}

fn line(line: &str) -> (String, Vec<u8>) {
    let (program, hex) = line.split_once('\t').expect("a tab");
    let byte = |at| u8::from_str_radix(&hex[at..at + 2], 16).expect("a byte");
    (
        program.into(),
        (0..hex.len()).step_by(2).map(byte).collect(),
    )
}

fn block(block: ReportBlock) -> ReportBlockBuilder {
    ReportBlock::builder(block.ssrc())
        .fraction_lost(block.fraction_lost())
        .cumulative_lost(block.cumulative_lost())
        .extended_sequence_number(block.extended_sequence_number())
        .interarrival_jitter(block.interarrival_jitter())
        .last_sender_report_timestamp(block.last_sender_report_timestamp())
        .delay_since_last_sender_report_timestamp(block.delay_since_last_sender_report_timestamp())
}

/// The same packet, to write.
fn again<'a>(datagram: CompoundBuilder<'a>, packet: Packet<'a>) -> CompoundBuilder<'a> {
    match packet {
        Packet::Sr(sr) => {
            let builder = SenderReport::builder(sr.ssrc())
                .ntp_timestamp(sr.ntp_timestamp())
                .rtp_timestamp(sr.rtp_timestamp())
                .packet_count(sr.packet_count())
                .octet_count(sr.octet_count());
            let blocks = sr.report_blocks().map(block);
            datagram.add_packet(blocks.fold(builder, |sr, block| sr.add_report_block(block)))
        }
        Packet::Rr(rr) => {
            let builder = ReceiverReport::builder(rr.ssrc());
            let blocks = rr.report_blocks().map(block);
            datagram.add_packet(blocks.fold(builder, |rr, block| rr.add_report_block(block)))
        }
        Packet::Sdes(sdes) => {
            let chunks = sdes.chunks().map(|chunk| {
                let items = chunk.items().map(|item| {
                    let builder = SdesItem::builder(item.type_(), item.value());
                    builder.prefix(item.priv_prefix().unwrap_or_default())
                });
                let builder = SdesChunk::builder(chunk.ssrc());
                items.fold(builder, |chunk, item| chunk.add_item(item))
            });
            datagram.add_packet(chunks.fold(Sdes::builder(), |sdes, chunk| sdes.add_chunk(chunk)))
        }
        Packet::Bye(bye) => {
            let builder = Bye::builder().reason_bytes(bye.reason().unwrap_or_default());
            datagram.add_packet(bye.ssrcs().fold(builder, |bye, ssrc| bye.add_source(ssrc)))
        }
        other => panic!("no such packet is among them: {other:?}"),
    }
}

#[test]
fn captures_are_read_and_written_again() {
    let captures = captures();
    let mut refused = Vec::new();
    for (program, data) in &captures {
        match Compound::parse(data) {
            Ok(compound) => {
                let packets: Vec<Packet> = compound
                    .clone()
                    .map(|packet| packet.expect("a packet"))
                    .collect();
                assert_eq!(packets.len(), compound.n_packets());
                let datagram = packets.into_iter().fold(Compound::builder(), again);
                let mut buf = vec![0x5A; data.len()];
                assert_eq!(datagram.write_into(&mut buf), Ok(data.len()));
                assert_eq!(buf, *data);
            }
            Err(error) => refused.push((program.as_str(), error.number(), data.len())),
        }
    }
    // The captures' README: one program sends a lone SR.
    assert!(refused.iter().all(|(program, number, len)| {
        program.starts_with("ffmpeg") && (*number, *len) == (8, 28)
    }));
    assert!(refused.len() < captures.len());
}
