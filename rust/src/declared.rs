// The structs and the functions of include/rtcp.h, for the macros `results` and `functions` of whoever includes this file. A struct that does not
// start with number, first and second is declared as it is. A function stands with its symbol.

results! {
    RtcpBlock {
        ssrc: u64, fraction_lost: u64, cumulative_lost: i32, extended_sequence_number: u64,
        interarrival_jitter: u64, last_sender_report_timestamp: u64,
        delay_since_last_sender_report_timestamp: u64
    }
    RtcpRr {
        ssrc: u64, n_reports: u64, extension: u64, extension_len: u64, body: u64,
        padding_len: u64
    }
    RtcpSr {
        ssrc: u64, ntp_timestamp: u64, rtp_timestamp: u64, packet_count: u64, octet_count: u64,
        n_reports: u64, extension: u64, extension_len: u64, body: u64, padding_len: u64
    }
    RtcpApp {
        subtype: u64, ssrc: u64, name: u64, name_len: u64, data: u64, data_len: u64, body: u64,
        padding_len: u64
    }
    RtcpBye {
        n_sources: u64, has_reason: u64, reason: u64, reason_len: u64, tail: u64, tail_len: u64,
        body: u64, padding_len: u64
    }
    RtcpSource { ssrc: u64 }
    RtcpSdes { n_chunks: u64, has_cname: u64, body: u64, padding_len: u64 }
    RtcpItem {
        type_: u64, length: u64, prefix: u64, prefix_len: u64, value: u64, value_len: u64
    }
    RtcpPart { offset: u64, len: u64 }
    RtcpChunk { ssrc: u64, length: u64, cname: u64 }
    RtcpChunkWalk { at: u64, end: u64 }
    RtcpChunkStep { ssrc: u64, length: u64, cname: u64, at: u64, end: u64 }
    RtcpItemWalk { at: u64 }
    RtcpItemStep {
        type_: u64, length: u64, prefix: u64, prefix_len: u64, value: u64, value_len: u64, at: u64
    }
    RtcpLookup { visits: u64 }
    RtcpCompound { n_packets: u64 }
    RtcpWalk { at: u64 }
    RtcpStep {
        kind: u64, packet_type: u64, count: u64, offset: u64, len: u64, body: u64,
        padding_len: u64, ssrc: u64, ntp_timestamp: u64, rtp_timestamp: u64, packet_count: u64,
        octet_count: u64, extension: u64, has_cname: u64, has_reason: u64, reason: u64,
        reason_len: u64, at: u64
    }
    RtcpWritten { size: u64 }
    RtcpCall {}
}

/// What a receiver keeps of a source.
#[repr(C)]
#[derive(Clone, Copy, Debug, Default, PartialEq, Eq)]
pub struct RtcpReception {
    pub max_seq: u16,
    pub cycles: u32,
    pub base_seq: u32,
    pub bad_seq: u32,
    pub probation: u32,
    pub received: u32,
    pub expected_prior: u32,
    pub received_prior: u32,
    pub transit: u32,
    pub jitter: u32,
}

/// The reception after a packet.
#[repr(C)]
#[derive(Clone, Copy, Debug, PartialEq, Eq)]
pub struct RtcpReceptionUpdate {
    pub reception: RtcpReception,
    pub accepted: u64,
}

/// The reception after a block, and the block.
#[repr(C)]
#[derive(Clone, Copy, Debug, PartialEq, Eq)]
pub struct RtcpReceptionBlock {
    pub reception: RtcpReception,
    pub in_probation: u64,
    pub block: RtcpBlock,
}

/// The state of a compound writer.
#[repr(C)]
#[derive(Clone, Copy, Debug, Default, PartialEq, Eq)]
pub struct RtcpWriter {
    pub length: u64,
    pub padded: u64,
    pub cname: u64,
    pub closed: u64,
}

functions! {
    "rtcp_block_parse" rtcp_block_parse(s: &[u8]) -> RtcpBlock;
    "rtcp_rr_parse" rtcp_rr_parse(s: &[u8]) -> RtcpRr;
    "rtcp_sr_parse" rtcp_sr_parse(s: &[u8]) -> RtcpSr;
    "rtcp_rr_report_block" rtcp_rr_report_block(s: &[u8], i: u64) -> RtcpBlock;
    "rtcp_sr_report_block" rtcp_sr_report_block(s: &[u8], i: u64) -> RtcpBlock;
    "rtcp_rr_report_blocks" rtcp_rr_report_blocks(
        s: &[u8], fractions: &mut [u8], losses: &mut [i32], words: &mut [u32]
    ) -> RtcpWritten;
    "rtcp_sr_report_blocks" rtcp_sr_report_blocks(
        s: &[u8], fractions: &mut [u8], losses: &mut [i32], words: &mut [u32]
    ) -> RtcpWritten;
    "rtcp_rr_read" rtcp_rr_read(
        s: &[u8], fractions: &mut [u8], losses: &mut [i32], words: &mut [u32]
    ) -> RtcpRr;
    "rtcp_sr_read" rtcp_sr_read(
        s: &[u8], fractions: &mut [u8], losses: &mut [i32], words: &mut [u32]
    ) -> RtcpSr;
    "rtcp_reception_new" rtcp_reception_new(seq: u16) -> RtcpReception;
    "rtcp_reception_update" rtcp_reception_update(
        reception: RtcpReception, seq: u16, timestamp: u32, arrival: u32
    ) -> RtcpReceptionUpdate;
    "rtcp_reception_report_block" rtcp_reception_report_block(
        reception: RtcpReception, ssrc: u32, last_sender_report_timestamp: u32,
        delay_since_last_sender_report_timestamp: u32
    ) -> RtcpReceptionBlock;
    "rtcp_app_parse" rtcp_app_parse(s: &[u8]) -> RtcpApp;
    "rtcp_bye_parse" rtcp_bye_parse(s: &[u8]) -> RtcpBye;
    "rtcp_bye_source" rtcp_bye_source(s: &[u8], i: u64) -> RtcpSource;
    "rtcp_sdes_parse" rtcp_sdes_parse(s: &[u8]) -> RtcpSdes;
    "rtcp_item_parse" rtcp_item_parse(s: &[u8]) -> RtcpItem;
    "rtcp_item_priv_prefix" rtcp_item_priv_prefix(s: &[u8]) -> RtcpPart;
    "rtcp_chunk_parse" rtcp_chunk_parse(s: &[u8]) -> RtcpChunk;
    "rtcp_chunk_walk_open" rtcp_chunk_walk_open(s: &[u8]) -> RtcpChunkWalk;
    "rtcp_chunk_walk_step" rtcp_chunk_walk_step(s: &[u8], at: u64, end: u64) -> RtcpChunkStep;
    "rtcp_item_walk_open" rtcp_item_walk_open(s: &[u8]) -> RtcpItemWalk;
    "rtcp_item_walk_step" rtcp_item_walk_step(s: &[u8], at: u64) -> RtcpItemStep;
    "rtcp_sdes_items" rtcp_sdes_items(s: &[u8], rows: &mut [u32]) -> RtcpWritten;
    "rtcp_sdes_lookup" rtcp_sdes_lookup(
        s: &[u8], ssrcs: &[u32], answers: &mut [u8]
    ) -> RtcpLookup;
    "rtcp_compound_parse" rtcp_compound_parse(s: &[u8]) -> RtcpCompound;
    "rtcp_compound_packets" rtcp_compound_packets(s: &[u8], packets: &mut [u64]) -> RtcpWritten;
    "rtcp_walk_open" rtcp_walk_open(s: &[u8]) -> RtcpWalk;
    "rtcp_walk_step" rtcp_walk_step(s: &[u8], at: u64) -> RtcpStep;

    "rtcp_rr_write" rtcp_rr_write(
        buf: &mut [u8], ssrc: u32, fractions: &[u8], losses: &[i32], words: &[u32], padding: u64
    ) -> RtcpWritten;
    "rtcp_sr_write" rtcp_sr_write(
        buf: &mut [u8], ssrc: u32, ntp_timestamp: u64, rtp_timestamp: u32, packet_count: u32,
        octet_count: u32, fractions: &[u8], losses: &[i32], words: &[u32], padding: u64
    ) -> RtcpWritten;
    "rtcp_bye_write" rtcp_bye_write(
        buf: &mut [u8], sources: &[u32], reason: &[u8], padding: u64
    ) -> RtcpWritten;
    "rtcp_app_write" rtcp_app_write(
        buf: &mut [u8], subtype: u64, ssrc: u32, name: &[u8], data: &[u8], padding: u64
    ) -> RtcpWritten;
    "rtcp_sdes_write" rtcp_sdes_write(
        buf: &mut [u8], ssrcs: &[u32], counts: &[u64], types: &[u8], prefixes: &[u64],
        values: &[u64], bytes: &[u8], padding: u64
    ) -> RtcpWritten;
    "rtcp_chunk_write" rtcp_chunk_write(
        buf: &mut [u8], ssrc: u32, types: &[u8], prefixes: &[u64], values: &[u64], bytes: &[u8]
    ) -> RtcpWritten;
    "rtcp_item_write" rtcp_item_write(
        buf: &mut [u8], type_: u8, prefix: &[u8], value: &[u8]
    ) -> RtcpWritten;
    "rtcp_rr_size" rtcp_rr_size(
        fractions: &[u8], losses: &[i32], words: &[u32], padding: u64
    ) -> RtcpWritten;
    "rtcp_sr_size" rtcp_sr_size(
        fractions: &[u8], losses: &[i32], words: &[u32], padding: u64
    ) -> RtcpWritten;
    "rtcp_bye_size" rtcp_bye_size(
        sources: &[u32], reason: &[u8], padding: u64
    ) -> RtcpWritten;
    "rtcp_app_size" rtcp_app_size(
        subtype: u64, name: &[u8], data: &[u8], padding: u64
    ) -> RtcpWritten;
    "rtcp_sdes_size" rtcp_sdes_size(
        ssrcs: &[u32], counts: &[u64], types: &[u8], prefixes: &[u64], values: &[u64],
        bytes: &[u8], padding: u64
    ) -> RtcpWritten;
    "rtcp_chunk_size" rtcp_chunk_size(
        types: &[u8], prefixes: &[u64], values: &[u64], bytes: &[u8]
    ) -> RtcpWritten;
    "rtcp_item_size" rtcp_item_size(type_: u8, prefix: &[u8], value: &[u8]) -> RtcpWritten;

    "rtcp_writer_new" rtcp_writer_new(writer: &mut RtcpWriter) -> ();
    "rtcp_writer_add_rr" rtcp_writer_add_rr(
        writer: &mut RtcpWriter, buf: &mut [u8], ssrc: u32, fractions: &[u8], losses: &[i32], words: &[u32], padding: u64
    ) -> RtcpCall;
    "rtcp_writer_add_sr" rtcp_writer_add_sr(
        writer: &mut RtcpWriter, buf: &mut [u8], ssrc: u32, ntp_timestamp: u64, rtp_timestamp: u32,
        packet_count: u32, octet_count: u32, fractions: &[u8], losses: &[i32], words: &[u32], padding: u64
    ) -> RtcpCall;
    "rtcp_writer_add_sdes" rtcp_writer_add_sdes(
        writer: &mut RtcpWriter, buf: &mut [u8], ssrcs: &[u32], counts: &[u64], types: &[u8],
        prefixes: &[u64], values: &[u64], bytes: &[u8], padding: u64
    ) -> RtcpCall;
    "rtcp_writer_add_bye" rtcp_writer_add_bye(
        writer: &mut RtcpWriter, buf: &mut [u8], sources: &[u32], reason: &[u8], padding: u64
    ) -> RtcpCall;
    "rtcp_writer_add_app" rtcp_writer_add_app(
        writer: &mut RtcpWriter, buf: &mut [u8], subtype: u64, ssrc: u32, name: &[u8], data: &[u8],
        padding: u64
    ) -> RtcpCall;
    "rtcp_writer_close" rtcp_writer_close(writer: &mut RtcpWriter) -> RtcpCall;
}
