use crate::ffi;
use crate::{header, padding_count, RtcpPacket, RtcpPacketParser, RtcpParseError};
use std::iter::FusedIterator;

/// What the two kinds of report have in common.
#[derive(Clone, Copy, Debug, PartialEq, Eq)]
struct Report<'a> {
    data: &'a [u8],
    ssrc: u32,
    /// Where the padding starts.
    body: u32,
    n_reports: u8,
}

// Their functions, for the type, and the C functions that read it and one of its blocks.
macro_rules! read_report {
    ($report:ident, $parse:path, $block:path) => {
        impl<'a> RtcpPacketParser<'a> for $report<'a> {
            #[inline]
            fn parse(data: &'a [u8]) -> Result<Self, RtcpParseError> {
                let read = $parse(data).done()?;
                let report = Report {
                    data,
                    ssrc: read.ssrc as u32,
                    body: read.body as u32,
                    n_reports: read.n_reports as u8,
                };
                Ok(Self::of(report, &read))
            }

            fn header_data(&self) -> [u8; 4] {
                header(self.report.data)
            }
        }

        impl<'a> $report<'a> {
            /// The packet's bytes, header and padding included.
            pub fn bytes(&self) -> &'a [u8] {
                self.report.data
            }

            /// The padding, its count at the end; empty where the packet is not padded.
            pub fn padding_bytes(&self) -> &'a [u8] {
                &self.report.data[self.report.body as usize..]
            }

            /// The number of padding bytes, if the packet is padded.
            pub fn padding(&self) -> Option<u8> {
                padding_count(self.padding_bytes())
            }

            /// The number of report blocks.
            pub fn n_reports(&self) -> u8 {
                self.report.n_reports
            }

            /// The SSRC of the one that reports.
            pub fn ssrc(&self) -> u32 {
                self.report.ssrc
            }

            /// The report blocks, one call of the library for each.
            #[inline]
            pub fn report_blocks(&self) -> ReportBlocks<'a> {
                ReportBlocks {
                    blocks: &self.report.data[Self::MIN_PACKET_LEN..self.blocks_end()],
                }
            }

            /// The report block with an index from 0; 25 past the last.
            pub fn report_block(&self, index: usize) -> Result<ReportBlock, RtcpParseError> {
                let block = $block(self.report.data, index as u64);
                Ok(ReportBlock::of(block.done()?))
            }

            /// The bytes after the blocks.
            pub fn extension(&self) -> &'a [u8] {
                &self.report.data[self.blocks_end()..self.report.body as usize]
            }

            #[inline]
            fn blocks_end(&self) -> usize {
                let blocks = usize::from(self.report.n_reports);
                Self::MIN_PACKET_LEN + ReportBlock::EXPECTED_SIZE * blocks
            }
        }
    };
}

// The same for the builders.
macro_rules! build_report {
    ($builder:ident) => {
        impl $builder {
            /// The number of padding bytes.
            pub fn padding(mut self, padding: u8) -> Self {
                self.padding = padding;
                self
            }

            /// Adds a report block, given by a builder or as it was read or counted
            /// ([`Reception::report_block`](crate::Reception::report_block)).
            #[inline]
            pub fn add_report_block(mut self, block: impl Into<ReportBlockBuilder>) -> Self {
                self.blocks.push(&block.into());
                self
            }
        }
    };
}

read_report!(SenderReport, ffi::rtcp_sr_parse, ffi::rtcp_sr_report_block);
read_report!(
    ReceiverReport,
    ffi::rtcp_rr_parse,
    ffi::rtcp_rr_report_block
);
build_report!(SenderReportBuilder);
build_report!(ReceiverReportBuilder);

/// A sender report.
///
/// ```
/// use bokyjave::{prelude::*, ReportBlock, SenderReport};
///
/// let mut buf = [0; 64];
/// let len = SenderReport::builder(7)
///     .ntp_timestamp(0x0102030405060708)
///     .rtp_timestamp(9)
///     .packet_count(10)
///     .octet_count(11)
///     .add_report_block(ReportBlock::builder(12).fraction_lost(13).cumulative_lost(14))
///     .write_into(&mut buf)?;
/// let sr = SenderReport::parse(&buf[..len])?;
/// assert_eq!((sr.ssrc(), sr.ntp_timestamp()), (7, 0x0102030405060708));
/// assert_eq!((sr.rtp_timestamp(), sr.packet_count(), sr.octet_count()), (9, 10, 11));
/// assert_eq!(sr.report_blocks().map(|block| block.cumulative_lost()).sum::<i32>(), 14);
/// # Ok::<(), Box<dyn std::error::Error>>(())
/// ```
#[derive(Clone, Copy, Debug, PartialEq, Eq)]
pub struct SenderReport<'a> {
    report: Report<'a>,
    ntp_timestamp: u64,
    rtp_timestamp: u32,
    packet_count: u32,
    octet_count: u32,
}

impl RtcpPacket for SenderReport<'_> {
    const MIN_PACKET_LEN: usize = 28;
    const PACKET_TYPE: u8 = 200;
}

impl<'a> SenderReport<'a> {
    #[inline]
    fn of(report: Report<'a>, read: &ffi::RtcpSr) -> Self {
        SenderReport {
            report,
            ntp_timestamp: read.ntp_timestamp,
            rtp_timestamp: read.rtp_timestamp as u32,
            packet_count: read.packet_count as u32,
            octet_count: read.octet_count as u32,
        }
    }

    /// The NTP time of the report, 32 bits before and 32 after the point.
    pub fn ntp_timestamp(&self) -> u64 {
        self.ntp_timestamp
    }

    /// The RTP time of the report.
    pub fn rtp_timestamp(&self) -> u32 {
        self.rtp_timestamp
    }

    /// The packets sent.
    pub fn packet_count(&self) -> u32 {
        self.packet_count
    }

    /// The octets sent.
    pub fn octet_count(&self) -> u32 {
        self.octet_count
    }

    /// A builder for a sender report.
    pub fn builder(ssrc: u32) -> SenderReportBuilder {
        SenderReportBuilder {
            ssrc,
            padding: 0,
            ntp_timestamp: 0,
            rtp_timestamp: 0,
            packet_count: 0,
            octet_count: 0,
            blocks: BlockLists::default(),
        }
    }
}

/// A receiver report.
///
/// ```
/// use bokyjave::{prelude::*, ReceiverReport};
///
/// let rr = ReceiverReport::parse(&[0x80, 201, 0, 2, 0, 0, 0, 7, 1, 2, 3, 4])?;
/// assert_eq!((rr.ssrc(), rr.n_reports(), rr.padding()), (7, 0, None));
/// assert_eq!(rr.report_blocks().count(), 0);
/// assert_eq!(rr.extension(), [1, 2, 3, 4]);
/// # Ok::<(), bokyjave::RtcpParseError>(())
/// ```
#[derive(Clone, Copy, Debug, PartialEq, Eq)]
pub struct ReceiverReport<'a> {
    report: Report<'a>,
}

impl RtcpPacket for ReceiverReport<'_> {
    const MIN_PACKET_LEN: usize = 8;
    const PACKET_TYPE: u8 = 201;
}

impl<'a> ReceiverReport<'a> {
    #[inline]
    fn of(report: Report<'a>, _: &ffi::RtcpRr) -> Self {
        ReceiverReport { report }
    }

    /// A builder for a receiver report.
    pub fn builder(ssrc: u32) -> ReceiverReportBuilder {
        ReceiverReportBuilder {
            ssrc,
            padding: 0,
            blocks: BlockLists::default(),
        }
    }
}

/// A report block: what a receiver says of one source.
///
/// ```
/// use bokyjave::{ReportBlock, RtcpParseError};
///
/// let mut bytes: Vec<u8> = (1..=24).collect();
/// let block = ReportBlock::parse(&bytes)?;
/// assert_eq!(block.ssrc(), 0x01020304);
/// assert_eq!((block.fraction_lost(), block.cumulative_lost()), (5, 0x060708));
/// assert_eq!(ReportBlock::parse(&bytes[1..]), Err(RtcpParseError::Truncated { expected: 24, actual: 23 }));
///
/// // More duplicates came than packets were lost.
/// bytes[5..8].copy_from_slice(&[0xFF, 0xFF, 0xFF]);
/// assert_eq!(ReportBlock::parse(&bytes)?.cumulative_lost(), -1);
/// # Ok::<(), RtcpParseError>(())
/// ```
#[derive(Clone, Copy, Debug, PartialEq, Eq)]
pub struct ReportBlock {
    ssrc: u32,
    fraction_lost: u8,
    cumulative_lost: i32,
    extended_sequence_number: u32,
    interarrival_jitter: u32,
    last_sender_report_timestamp: u32,
    delay_since_last_sender_report_timestamp: u32,
}

impl ReportBlock {
    /// The bytes of a block.
    pub const EXPECTED_SIZE: usize = 24;

    #[inline]
    pub(crate) fn of(block: ffi::RtcpBlock) -> Self {
        ReportBlock {
            ssrc: block.ssrc as u32,
            fraction_lost: block.fraction_lost as u8,
            cumulative_lost: block.cumulative_lost,
            extended_sequence_number: block.extended_sequence_number as u32,
            interarrival_jitter: block.interarrival_jitter as u32,
            last_sender_report_timestamp: block.last_sender_report_timestamp as u32,
            delay_since_last_sender_report_timestamp: block.delay_since_last_sender_report_timestamp
                as u32,
        }
    }

    /// Reads a lone block.
    #[inline]
    pub fn parse(data: &[u8]) -> Result<Self, RtcpParseError> {
        Ok(Self::of(ffi::rtcp_block_parse(data).done()?))
    }

    /// The SSRC of the source that the block is about.
    pub fn ssrc(&self) -> u32 {
        self.ssrc
    }

    /// The part of the packets lost since the last report, in 256ths.
    pub fn fraction_lost(&self) -> u8 {
        self.fraction_lost
    }

    /// The packets lost since the beginning, from -8,388,608 to 8,388,607: those
    /// expected less those received. Duplicates count as received, so it can be
    /// below zero (RFC 3550 6.4.1).
    pub fn cumulative_lost(&self) -> i32 {
        self.cumulative_lost
    }

    /// The highest sequence number received, with its cycles.
    pub fn extended_sequence_number(&self) -> u32 {
        self.extended_sequence_number
    }

    /// The jitter of the packets' arrival, in RTP time.
    pub fn interarrival_jitter(&self) -> u32 {
        self.interarrival_jitter
    }

    /// The middle 32 bits of the NTP time of the last sender report received.
    pub fn last_sender_report_timestamp(&self) -> u32 {
        self.last_sender_report_timestamp
    }

    /// The time since that report, in 65,536ths of a second.
    pub fn delay_since_last_sender_report_timestamp(&self) -> u32 {
        self.delay_since_last_sender_report_timestamp
    }

    /// A builder for a block about a source.
    pub fn builder(ssrc: u32) -> ReportBlockBuilder {
        ReportBlockBuilder {
            fraction_lost: 0,
            cumulative_lost: 0,
            words: [ssrc, 0, 0, 0, 0],
        }
    }
}

/// The report blocks of a packet.
#[derive(Clone, Debug)]
pub struct ReportBlocks<'a> {
    blocks: &'a [u8],
}

impl Iterator for ReportBlocks<'_> {
    type Item = ReportBlock;

    #[inline]
    fn next(&mut self) -> Option<ReportBlock> {
        let (block, rest) = self.blocks.split_at_checked(ReportBlock::EXPECTED_SIZE)?;
        self.blocks = rest;
        ReportBlock::parse(block).ok()
    }

    fn size_hint(&self) -> (usize, Option<usize>) {
        let left = self.blocks.len() / ReportBlock::EXPECTED_SIZE;
        (left, Some(left))
    }
}

impl ExactSizeIterator for ReportBlocks<'_> {}

impl FusedIterator for ReportBlocks<'_> {}

/// A report block to write.
#[derive(Clone, Copy, Debug, PartialEq, Eq)]
#[must_use = "a builder does nothing until it is added to a report"]
pub struct ReportBlockBuilder {
    fraction_lost: u8,
    cumulative_lost: i32,
    /// The other fields in the order of the block.
    words: [u32; 5],
}

impl From<ReportBlock> for ReportBlockBuilder {
    #[inline]
    fn from(block: ReportBlock) -> Self {
        ReportBlockBuilder {
            fraction_lost: block.fraction_lost,
            cumulative_lost: block.cumulative_lost,
            words: [
                block.ssrc,
                block.extended_sequence_number,
                block.interarrival_jitter,
                block.last_sender_report_timestamp,
                block.delay_since_last_sender_report_timestamp,
            ],
        }
    }
}

impl ReportBlockBuilder {
    /// The part of the packets lost since the last report, in 256ths.
    pub fn fraction_lost(mut self, fraction_lost: u8) -> Self {
        self.fraction_lost = fraction_lost;
        self
    }

    /// The packets lost since the beginning, from -8,388,608 to 8,388,607; a
    /// report with another number is not written (17).
    pub fn cumulative_lost(mut self, cumulative_lost: i32) -> Self {
        self.cumulative_lost = cumulative_lost;
        self
    }

    /// The highest sequence number received, with its cycles.
    pub fn extended_sequence_number(mut self, extended_sequence_number: u32) -> Self {
        self.words[1] = extended_sequence_number;
        self
    }

    /// The jitter of the packets' arrival, in RTP time.
    pub fn interarrival_jitter(mut self, interarrival_jitter: u32) -> Self {
        self.words[2] = interarrival_jitter;
        self
    }

    /// The middle 32 bits of the NTP time of the last sender report received.
    pub fn last_sender_report_timestamp(mut self, last_sender_report_timestamp: u32) -> Self {
        self.words[3] = last_sender_report_timestamp;
        self
    }

    /// The time since that report, in 65,536ths of a second.
    pub fn delay_since_last_sender_report_timestamp(
        mut self,
        delay_since_last_sender_report_timestamp: u32,
    ) -> Self {
        self.words[4] = delay_since_last_sender_report_timestamp;
        self
    }
}

/// Report blocks as the library takes them: for each a fraction, a loss and five
/// words.
#[derive(Clone, Debug, Default)]
struct BlockLists {
    fractions: Vec<u8>,
    losses: Vec<i32>,
    words: Vec<u32>,
}

impl BlockLists {
    /// There is room at once for as many as a report has.
    #[inline]
    fn push(&mut self, block: &ReportBlockBuilder) {
        if self.fractions.is_empty() {
            let most = usize::from(SenderReport::MAX_COUNT);
            *self = BlockLists {
                fractions: Vec::with_capacity(most),
                losses: Vec::with_capacity(most),
                words: Vec::with_capacity(most * block.words.len()),
            };
        }
        self.fractions.push(block.fraction_lost);
        self.losses.push(block.cumulative_lost);
        self.words.extend_from_slice(&block.words);
    }
}

/// A sender report to write.
#[derive(Clone, Debug)]
#[must_use = "a builder does nothing until it is written"]
pub struct SenderReportBuilder {
    ssrc: u32,
    padding: u8,
    ntp_timestamp: u64,
    rtp_timestamp: u32,
    packet_count: u32,
    octet_count: u32,
    blocks: BlockLists,
}

impl SenderReportBuilder {
    /// The NTP time of the report.
    pub fn ntp_timestamp(mut self, ntp_timestamp: u64) -> Self {
        self.ntp_timestamp = ntp_timestamp;
        self
    }

    /// The RTP time of the report.
    pub fn rtp_timestamp(mut self, rtp_timestamp: u32) -> Self {
        self.rtp_timestamp = rtp_timestamp;
        self
    }

    /// The packets sent.
    pub fn packet_count(mut self, packet_count: u32) -> Self {
        self.packet_count = packet_count;
        self
    }

    /// The octets sent.
    pub fn octet_count(mut self, octet_count: u32) -> Self {
        self.octet_count = octet_count;
        self
    }
}

packet_writer! {
    SenderReportBuilder, sr,
    rtcp_sr_size(
        &sr.blocks.fractions, &sr.blocks.losses, &sr.blocks.words, sr.padding.into()
    ),
    rtcp_sr_write,
    rtcp_writer_add_sr(
        sr.ssrc, sr.ntp_timestamp, sr.rtp_timestamp, sr.packet_count, sr.octet_count,
        &sr.blocks.fractions, &sr.blocks.losses, &sr.blocks.words, sr.padding.into()
    )
}

/// A receiver report to write.
///
/// ```
/// use bokyjave::{prelude::*, ReceiverReport, ReportBlock, RtcpWriteError};
///
/// let lost = |lost| ReceiverReport::builder(7).add_report_block(ReportBlock::builder(8).cumulative_lost(lost));
/// let mut buf = [0; 32];
/// for written in [-8_388_608, -1, 0, 8_388_607] {
///     assert_eq!(lost(written).write_into(&mut buf), Ok(32));
///     let rr = ReceiverReport::parse(&buf)?;
///     assert_eq!(rr.report_block(0)?.cumulative_lost(), written);
/// }
/// for refused in [-8_388_609, 8_388_608] {
///     let error = RtcpWriteError::CumulativeLostTooLarge { value: refused as u32, max: 8_388_607 };
///     assert_eq!(lost(refused).write_into(&mut buf), Err(error));
/// }
/// # Ok::<(), Box<dyn std::error::Error>>(())
/// ```
#[derive(Clone, Debug)]
#[must_use = "a builder does nothing until it is written"]
pub struct ReceiverReportBuilder {
    ssrc: u32,
    padding: u8,
    blocks: BlockLists,
}

packet_writer! {
    ReceiverReportBuilder, rr,
    rtcp_rr_size(
        &rr.blocks.fractions, &rr.blocks.losses, &rr.blocks.words, rr.padding.into()
    ),
    rtcp_rr_write,
    rtcp_writer_add_rr(
        rr.ssrc, &rr.blocks.fractions, &rr.blocks.losses, &rr.blocks.words, rr.padding.into()
    )
}
