//! The reception figures of RFC 3550 A.1, A.3 and A.8: both sides of each limit,
//! and histories counted over exact integers.

use bokyjave::{Reception, ReportBlock};

/// A source after packets with these sequence numbers, and which are accepted.
fn after(seqs: &[u16]) -> (Reception, Vec<bool>) {
    let mut source = Reception::new(seqs[0]);
    let accepted = seqs.iter().map(|seq| source.update(*seq, 0, 0)).collect();
    (source, accepted)
}

/// Whether the last of these packets is accepted, and the packets received and the
/// extended sequence number after it.
fn last(seqs: &[u16]) -> (bool, u32, u32) {
    let (source, accepted) = after(seqs);
    let last = accepted.last().expect("a packet");
    (*last, source.received(), source.extended_sequence_number())
}

/// The fraction, the loss and the extended sequence number of the next block.
fn block(source: &mut Reception) -> (u8, i32, u32) {
    let block = source.report_block(7, 8, 9).expect("a block");
    assert_eq!(block.ssrc(), 7);
    assert_eq!(block.last_sender_report_timestamp(), 8);
    assert_eq!(block.delay_since_last_sender_report_timestamp(), 9);
    (
        block.fraction_lost(),
        block.cumulative_lost(),
        block.extended_sequence_number(),
    )
}

#[test]
fn probation_takes_two_packets_in_order() {
    for seqs in [&[0][..], &[5, 7], &[5, 5], &[5, 4], &[5, 7, 9, 8]] {
        let (mut source, accepted) = after(seqs);
        assert!(!accepted.contains(&true), "{seqs:?}");
        let before = source;
        assert!(source.in_probation());
        assert_eq!(source.report_block(7, 8, 9), None);
        assert_eq!((source, source.received()), (before, 0));
    }
    assert_eq!(last(&[0, 1]), (true, 1, 1));
    assert_eq!(last(&[65535, 0]), (true, 1, 0));
    assert_eq!(last(&[5, 7, 8]), (true, 1, 8));
    assert_eq!(last(&[5, 4, 5]), (true, 1, 5));
}

#[test]
fn a_gap_is_below_3000_and_a_late_packet_within_100() {
    assert_eq!(last(&[0, 1, 1]), (true, 2, 1));
    assert_eq!(last(&[0, 1, 3000]), (true, 2, 3000));
    assert_eq!(last(&[0, 1, 3001]), (false, 1, 1));
    assert_eq!(last(&[0, 1, 65437]), (false, 1, 1));
    assert_eq!(last(&[0, 1, 65438]), (true, 2, 1));
    assert_eq!(last(&[0, 1, 0]), (true, 2, 1));
    assert_eq!(last(&[65534, 65535, 2998]), (true, 2, 65536 + 2998));
    assert_eq!(last(&[65534, 65535, 2999]), (false, 1, 65535));
}

#[test]
fn a_late_packet_wraps_nothing() {
    assert_eq!(last(&[65534, 65535, 0, 65535]), (true, 3, 65536));
    assert_eq!(last(&[65534, 65535, 0, 65535, 1]), (true, 4, 65537));
}

#[test]
fn two_packets_after_a_jump_restart_the_source() {
    assert_eq!(last(&[0, 1, 3001, 3002]), (true, 1, 3002));
    assert_eq!(last(&[0, 1, 2, 3, 4001, 4003]), (false, 3, 3));
    assert_eq!(last(&[0, 1, 2, 3, 4001, 4003, 4004]), (true, 1, 4004));
    assert_eq!(last(&[0, 1, 3001, 3001]), (false, 1, 1));
    assert_eq!(last(&[0, 1, 3001, 2, 3002]), (true, 1, 3002));
    assert_eq!(last(&[30000, 30001, 65535, 0]), (true, 1, 0));
    assert_eq!(last(&[65534, 65535, 0, 30000, 30001]), (true, 1, 30001));
    // The second of them is no jump: it is late.
    assert_eq!(last(&[0, 1, 65437, 65438]), (true, 2, 1));
    // A start forgets the jump before it.
    assert_eq!(
        last(&[0, 1, 3001, 3002, 5000, 7000, 3002]),
        (false, 3, 7000)
    );
}

#[test]
fn blocks_count_from_the_last_block_or_the_start() {
    let (mut source, _) = after(&[0, 1]);
    assert_eq!(block(&mut source), (0, 0, 1));
    assert_eq!(block(&mut source), (0, 0, 1));
    assert!(source.update(257, 0, 0));
    assert_eq!(block(&mut source), (255, 255, 257));
    assert!(source.update(258, 0, 0));
    assert_eq!(block(&mut source), (0, 255, 258));

    let (mut source, _) = after(&[0, 1, 2, 4]);
    assert_eq!(block(&mut source), (64, 1, 4));
    assert!(source.update(3, 0, 0));
    assert_eq!(block(&mut source), (0, 0, 4));
    assert!(source.update(3, 0, 0));
    assert_eq!(block(&mut source), (0, -1, 4));

    // The losses before the restart are forgotten.
    let (mut source, _) = after(&[0, 1, 9, 3009, 3010, 3012]);
    assert_eq!(block(&mut source), (85, 1, 3012));
}

#[test]
fn jitter_is_of_the_packets_accepted() {
    const HALF: u32 = 1 << 31;
    let mut source = Reception::new(0);
    assert!(!source.update(0, 0, 77));
    assert!(source.update(1, 1000, 5));
    assert_eq!(source.interarrival_jitter(), 0);
    // Not accepted.
    assert!(!source.update(5000, 0, HALF));
    assert_eq!(source.interarrival_jitter(), 0);
    // A difference of -2^31 counts 2^31.
    assert!(source.update(2, 1000, 5u32.wrapping_add(HALF)));
    assert_eq!(source.interarrival_jitter(), HALF / 16);
    assert!(source.update(3, 1000, 5));
    assert_eq!(
        source.interarrival_jitter(),
        (u32::MAX - HALF / 16 + 1) / 16
    );
    // The restarting packet counts against the transit that was kept.
    let mut source = Reception::new(0);
    let packets = [(0, 0), (1, 0), (2, 1600), (5000, 0), (5001, 0)];
    let jitter = packets.map(|(seq, arrival)| {
        source.update(seq, 0, arrival);
        source.interarrival_jitter()
    });
    assert_eq!(jitter, [0, 0, 100, 100, 193]);
}

/// What A.3 and A.8 count of a stream that does not restart, over exact integers.
#[derive(Default)]
struct Counted {
    base: i64,
    highest: i64,
    received: i64,
    prior: (i64, i64),
    transit: i64,
    jitter: i64,
}

impl Counted {
    fn packet(&mut self, number: i64, transit: i64) {
        if self.received > 0 {
            let difference = (transit - self.transit).abs();
            self.jitter += difference - ((self.jitter + 8) >> 4);
        }
        self.highest = self.highest.max(number);
        self.transit = transit;
        self.received += 1;
    }

    fn expected(&self) -> i64 {
        self.highest - self.base + 1
    }

    /// The fraction, the loss, the extended sequence number and the jitter.
    fn block(&mut self) -> (i64, i64, i64, i64) {
        let expected = self.expected() - self.prior.0;
        let lost = expected - (self.received - self.prior.1);
        let fraction = match lost > 0 {
            true => 256 * lost / expected,
            false => 0,
        };
        self.prior = (self.expected(), self.received);
        let in_all = self.expected() - self.received;
        (fraction, in_all, self.highest, self.jitter >> 4)
    }
}

fn numbers(block: ReportBlock) -> (i64, i64, i64, i64) {
    (
        block.fraction_lost().into(),
        block.cumulative_lost().into(),
        block.extended_sequence_number().into(),
        block.interarrival_jitter().into(),
    )
}

/// Packets from a number on, each sent `late` places after its own (0 is in order);
/// one in `lost` is not sent, one in `twice` is sent twice.
fn history(first: i64, late: i64, lost: i64, twice: i64) {
    let mut source = Reception::new(first as u16);
    assert!(!source.update(first as u16, 0, 0));
    assert!(source.update(first as u16 + 1, 160, 160));
    let mut counted = Counted {
        base: first + 1,
        ..Counted::default()
    };
    counted.packet(first + 1, 0);
    for step in 2..3000 {
        let place = step - (late * (step % 2));
        if place < 2 || place % lost == 0 {
            continue;
        }
        for copy in 0..1 + i64::from(place % twice == 0) {
            let (number, transit) = (first + place, place * place % 97 + copy);
            let timestamp = 160 * place as u32;
            assert!(source.update(number as u16, timestamp, timestamp + transit as u32));
            counted.packet(number, transit);
        }
        if step % 500 == 0 {
            let block = source.report_block(7, 8, 9).expect("a block");
            assert_eq!(numbers(block), counted.block(), "{first}, step {step}");
        }
    }
    assert_eq!(i64::from(source.received()), counted.received);
}

#[test]
fn histories_are_counted_as_over_exact_integers() {
    for first in [0, 1, 32000, 63000, 65400, 65533, 65534] {
        for (late, lost, twice) in [
            (0, 5000, 5000),
            (0, 20, 5000),
            (0, 5000, 3),
            (1, 7, 11),
            (40, 3, 50),
        ] {
            history(first, late, lost, twice);
        }
    }
}
