use crate::ffi;
use crate::ReportBlock;

/// What a receiver keeps of one source: the state of RFC 3550 A.1 (sequence
/// numbers), A.3 (losses) and A.8 (jitter), from which the report blocks about the
/// source are filled.
///
/// The source's first packet makes it, and goes through [`update`](Self::update) as
/// every other packet does. A source is in probation until two packets in order
/// came; until then it gets no block.
///
/// ```
/// use bokyjave::{prelude::*, ReceiverReport, Reception};
///
/// // A packet every 160 units. One is lost, and the one before it came 16 late.
/// let mut source = Reception::new(65534);
/// assert!(!source.update(65534, 0, 500));
/// assert_eq!(source.report_block(7, 0, 0), None);
/// assert!(source.update(65535, 160, 660));
/// assert!(source.update(0, 320, 836));
/// assert!(source.update(2, 640, 1140));
///
/// let block = source.report_block(7, 0, 0).expect("two packets in order");
/// // One of four, in 256ths.
/// assert_eq!((block.fraction_lost(), block.cumulative_lost()), (64, 1));
/// assert_eq!(block.extended_sequence_number(), 65536 + 2);
/// assert_eq!(block.interarrival_jitter(), 1);
/// let mut buf = [0; 32];
/// ReceiverReport::builder(8).add_report_block(block).write_into(&mut buf)?;
/// # Ok::<(), bokyjave::RtcpWriteError>(())
/// ```
#[derive(Clone, Copy, Debug, PartialEq, Eq)]
pub struct Reception {
    state: ffi::RtcpReception,
}

impl Reception {
    /// The reception of a source, from the sequence number of its first packet.
    /// That packet is not counted by this.
    #[inline]
    pub fn new(seq: u16) -> Self {
        Reception {
            state: ffi::rtcp_reception_new(seq),
        }
    }

    /// Counts a packet of the source, and says whether it is accepted as valid
    /// (A.1). `arrival` is when it came, by a clock of the receiver's that counts in
    /// the units of the RTP timestamp from any start and wraps at 2^32.
    #[inline]
    pub fn update(&mut self, seq: u16, timestamp: u32, arrival: u32) -> bool {
        let after = ffi::rtcp_reception_update(self.state, seq, timestamp, arrival);
        self.state = after.reception;
        after.accepted != 0
    }

    /// The block about the source, for a report that is sent now; none where the
    /// source is in probation. The next block's fraction lost counts from this one.
    ///
    /// The middle 32 bits of the NTP time of the source's last sender report are the
    /// caller's to give, with the time since it came in 65,536ths of a second; 0 and
    /// 0 where none came.
    #[inline]
    pub fn report_block(
        &mut self,
        ssrc: u32,
        last_sender_report_timestamp: u32,
        delay_since_last_sender_report_timestamp: u32,
    ) -> Option<ReportBlock> {
        let after = ffi::rtcp_reception_report_block(
            self.state,
            ssrc,
            last_sender_report_timestamp,
            delay_since_last_sender_report_timestamp,
        );
        self.state = after.reception;
        match after.in_probation {
            0 => Some(ReportBlock::of(after.block)),
            _ => None,
        }
    }

    /// Whether the source is in probation.
    pub fn in_probation(&self) -> bool {
        self.state.probation != 0
    }

    /// The packets accepted since probation ended or the source restarted, late and
    /// duplicate ones too.
    pub fn received(&self) -> u32 {
        self.state.received
    }

    /// The highest sequence number received, with its cycles.
    pub fn extended_sequence_number(&self) -> u32 {
        self.state.cycles.wrapping_add(self.state.max_seq.into())
    }

    /// The jitter of the packets' arrival, in RTP time.
    pub fn interarrival_jitter(&self) -> u32 {
        self.state.jitter / 16
    }
}

#[cfg(test)]
mod tests {
    use super::*;
    use crate::{ReceiverReport, RtcpPacketParser, RtcpPacketWriter, SenderReport};

    /// Numbers of all bits, the same in each run.
    struct Bits(u64);

    impl Bits {
        fn next(&mut self) -> u64 {
            self.0 ^= self.0 << 13;
            self.0 ^= self.0 >> 7;
            self.0 ^= self.0 << 17;
            self.0
        }

        fn word(&mut self) -> u32 {
            (self.next() >> 32) as u32
        }

        /// A state of any bits; in probation every other time.
        fn reception(&mut self) -> Reception {
            let probation = self.word() * (self.word() & 1);
            let state = ffi::RtcpReception {
                max_seq: self.word() as u16,
                cycles: self.word(),
                base_seq: self.word(),
                bad_seq: self.word(),
                probation,
                received: self.word(),
                expected_prior: self.word(),
                received_prior: self.word(),
                transit: self.word(),
                jitter: self.word(),
            };
            Reception { state }
        }
    }

    /// The block in a report of either kind, read back.
    fn written(block: ReportBlock) -> [ReportBlock; 2] {
        let mut buf = [0; 52];
        let rr = ReceiverReport::builder(1).add_report_block(block);
        let len = rr.write(&mut buf).expect("a receiver report");
        let rr = ReceiverReport::parse(&buf[..len]).expect("a receiver report");
        let first = rr.report_block(0).expect("its block");
        let sr = SenderReport::builder(1).add_report_block(block);
        let len = sr.write(&mut buf).expect("a sender report");
        let sr = SenderReport::parse(&buf[..len]).expect("a sender report");
        [first, sr.report_block(0).expect("its block")]
    }

    #[test]
    fn a_block_of_any_state_is_written() {
        let mut bits = Bits(0x9E37_79B9_7F4A_7C15);
        for _ in 0..100_000 {
            let (mut source, words) = (bits.reception(), [bits.word(), bits.word(), bits.word()]);
            let before = source;
            let Some(block) = source.report_block(words[0], words[1], words[2]) else {
                assert!(before.in_probation());
                assert_eq!(source, before);
                continue;
            };
            assert!(!before.in_probation());
            assert_eq!(written(block), [block; 2]);
            assert_eq!(block.ssrc(), words[0]);
            assert_eq!(
                block.extended_sequence_number(),
                before.extended_sequence_number()
            );
            assert_eq!(block.interarrival_jitter(), before.interarrival_jitter());
            assert_eq!(block.last_sender_report_timestamp(), words[1]);
            assert_eq!(block.delay_since_last_sender_report_timestamp(), words[2]);
            assert_eq!(source.received(), before.received());
        }
    }

    #[test]
    fn any_state_takes_a_packet() {
        let mut bits = Bits(0xD1B5_4A32_D192_ED03);
        for _ in 0..100_000 {
            let (mut source, seq) = (bits.reception(), bits.word() as u16);
            let before = source.state;
            let accepted = source.update(seq, bits.word(), bits.word());
            let after = source.state;
            if !accepted {
                assert_eq!(
                    (after.transit, after.jitter),
                    (before.transit, before.jitter)
                );
                assert_eq!(after.received, before.received);
                continue;
            }
            let started = (after.base_seq, after.bad_seq, after.received) == (seq.into(), 65537, 1);
            assert!(started || after.received == before.received.wrapping_add(1));
        }
    }

    #[test]
    fn all_bits_set() {
        let state = ffi::RtcpReception {
            max_seq: u16::MAX,
            cycles: u32::MAX,
            base_seq: u32::MAX,
            bad_seq: u32::MAX,
            probation: u32::MAX,
            received: u32::MAX,
            expected_prior: u32::MAX,
            received_prior: u32::MAX,
            transit: u32::MAX,
            jitter: u32::MAX,
        };
        let mut source = Reception { state };
        assert_eq!(source.report_block(1, 2, 3), None);
        assert_eq!(source, Reception { state });
        assert!(!source.update(0, 0, 0));
        assert_eq!(source.state.probation, u32::MAX - 1);

        let state = ffi::RtcpReception {
            probation: 0,
            ..state
        };
        let mut source = Reception { state };
        let block = source.report_block(u32::MAX, u32::MAX, u32::MAX);
        let block = block.expect("a block");
        assert_eq!(
            (block.fraction_lost(), block.cumulative_lost()),
            (255, 65537)
        );
        assert_eq!(block.extended_sequence_number(), 65534);
        assert_eq!(block.interarrival_jitter(), u32::MAX / 16);
        assert_eq!(source.state.expected_prior, 65536);
        assert!(source.update(0, 0, 0));
        assert_eq!((source.received(), source.state.cycles), (0, 65535));
        assert_eq!((source.state.transit, source.state.jitter), (0, 0));
    }
}
