//! Order 3 of document 02, "Reception figures", sentence by sentence. The numbers are
//! reckoned by hand.

use model::*;

const NO_BAD_SEQ: u32 = 65_537;
const HALF: i128 = 1 << 31;

/// A source in both readings, which must say the same.
struct Source {
    words: Reception,
    exact: ExactReception,
}

impl Source {
    fn new(seq: u16) -> Source {
        Source {
            words: Reception::new(seq),
            exact: ExactReception::new(seq),
        }
    }

    /// A source that these packets came from.
    fn of(packets: &[u16]) -> Source {
        let mut source = Source::new(packets[0]);
        for seq in packets {
            source.packet(*seq);
        }
        source
    }

    fn take(&mut self, event: Event) -> Reply {
        let reply = self.words.take(event);
        assert_eq!(self.exact.take(event), reply, "{event:?}");
        assert!(self.exact.supposed());
        match self.exact.in_words() {
            Some(words) => assert_eq!(words, self.words),
            None => assert_ne!(self.words.probation, 0),
        }
        reply
    }

    fn timed(&mut self, seq: u16, timestamp: u32, arrival: u32) -> bool {
        let event = Event::Packet {
            seq,
            timestamp,
            arrival,
        };
        self.take(event) == Reply::Packet(true)
    }

    fn packet(&mut self, seq: u16) -> bool {
        self.timed(seq, 0, 0)
    }

    fn block(&mut self) -> Option<Block> {
        let event = Event::Block {
            ssrc: 7,
            last_sr: 8,
            delay: 9,
        };
        match self.take(event) {
            Reply::Block(block) => block,
            Reply::Packet(_) => None,
        }
    }

    /// Fraction, loss and extended sequence of a block.
    fn figures(&mut self) -> (u8, i32, u32) {
        figures(self.block())
    }
}

fn figures(block: Option<Block>) -> (u8, i32, u32) {
    let block = block.expect("not in probation");
    (
        block.fraction_lost,
        block.cumulative_lost,
        block.extended_sequence,
    )
}

/// A valid state with these numbers and a 0 in every other.
fn valid(max_seq: u16, cycles: u32, base_seq: u32, received: u32) -> Reception {
    Reception {
        max_seq,
        cycles,
        base_seq,
        received,
        bad_seq: NO_BAD_SEQ,
        ..Reception::default()
    }
}

// ---- probation

#[test]
fn a_new_source() {
    let wanted = Reception {
        max_seq: 4,
        base_seq: 5,
        bad_seq: NO_BAD_SEQ,
        probation: 2,
        ..Reception::default()
    };
    assert_eq!(Reception::new(5), wanted);
    assert_eq!(Reception::new(0).max_seq, 65_535);
    assert_eq!(
        Reception::new(65_535).numbers(),
        [65_534, 0, 65_535, 65_537, 2, 0, 0, 0, 0, 0]
    );
}

#[test]
fn two_in_sequence_end_probation() {
    let mut source = Source::new(5);
    assert!(!source.packet(5));
    assert_eq!(source.words.probation, 1);
    assert!(source.packet(6));
    // Base and received start at the packet that ends it.
    assert_eq!(source.words, valid(6, 0, 6, 1));
}

#[test]
fn the_successor_in_probation_is_modulo_65536() {
    let mut source = Source::new(65_535);
    assert!(!source.packet(65_535));
    assert!(source.packet(0));
    assert_eq!(source.words, valid(0, 0, 0, 1));
}

#[test]
fn a_gap_in_probation() {
    let mut source = Source::new(5);
    assert_eq!([5, 7, 9, 8].map(|seq| source.packet(seq)), [false; 4]);
    assert_eq!((source.words.probation, source.words.max_seq), (1, 8));
    assert!(source.packet(9));
    assert_eq!(source.words, valid(9, 0, 9, 1));
}

#[test]
fn the_same_number_twice_in_probation() {
    let mut source = Source::new(5);
    assert_eq!(
        [5, 5, 6].map(|seq| source.packet(seq)),
        [false, false, true]
    );
    assert_eq!(source.words, valid(6, 0, 6, 1));
}

/// A source set up from a number that does not come.
#[test]
fn another_number_first() {
    let mut source = Source::new(5);
    assert_eq!([9, 10].map(|seq| source.packet(seq)), [false, true]);
    let mut source = Source::new(5);
    assert_eq!([4, 5].map(|seq| source.packet(seq)), [false, true]);
}

#[test]
fn a_source_in_probation_gets_no_block() {
    let mut source = Source::new(5);
    for seq in [5, 9, 5000, 5000] {
        let before = source.words;
        assert_eq!(source.block(), None);
        assert_eq!(source.words, before);
        source.packet(seq);
    }
    assert_eq!(source.block(), None);
    assert!(source.packet(5001));
    assert!(source.block().is_some());
}

// ---- A.1's differences

#[test]
fn both_sides_of_3000_ahead() {
    let mut source = Source::of(&[0, 1]);
    assert!(source.packet(3000));
    assert_eq!(source.words, valid(3000, 0, 1, 2));
    // 3000 expected and 2 received: 2998 x 256 / 3000 = 255.8.
    assert_eq!(source.figures(), (255, 2998, 3000));
    let mut source = Source::of(&[0, 1]);
    assert!(!source.packet(3001));
    let jumped = Reception {
        bad_seq: 3002,
        ..valid(1, 0, 1, 1)
    };
    assert_eq!(source.words, jumped);
}

#[test]
fn both_sides_of_100_behind() {
    let mut source = Source::of(&[0, 1]);
    assert!(!source.packet(65_437));
    assert_eq!(source.words.bad_seq, 65_438);
    assert_eq!(source.figures(), (0, 0, 1));
    let mut source = Source::of(&[0, 1]);
    assert!(source.packet(65_438));
    // The highest number stays, and one more came than was expected.
    assert_eq!(source.words, valid(1, 0, 1, 2));
    assert_eq!(source.figures(), (0, -1, 1));
}

#[test]
fn every_difference_has_one_place() {
    for max_seq in [0, 1, 2999, 40_000, 65_535] {
        let state = valid(max_seq, 0, 0, 1);
        for difference in 0..=65_535u16 {
            let wanted = match difference {
                0..=2999 => Place::Ahead,
                3000..=65_436 => Place::Jump,
                65_437..=65_535 => Place::Behind,
            };
            assert_eq!(state.place(max_seq.wrapping_add(difference)), wanted);
        }
    }
}

#[test]
fn a_duplicate_counts() {
    let mut source = Source::of(&[0, 1, 2]);
    assert_eq!(source.figures(), (0, 0, 2));
    assert!(source.packet(2));
    assert!(source.packet(1));
    assert_eq!(source.figures(), (0, -2, 2));
    assert_eq!(source.words.received, 4);
}

#[test]
fn the_sequence_wraps() {
    let mut source = Source::of(&[65_533, 65_534, 65_535, 0]);
    assert_eq!(source.words, valid(0, 65_536, 65_534, 3));
    assert_eq!(source.figures(), (0, 0, 65_536));
    // One from before the wrap does not take it back.
    assert!(source.packet(65_535));
    assert_eq!(source.figures(), (0, -1, 65_536));
    let mut source = Source::of(&[65_534, 65_535, 2998]);
    assert_eq!(source.figures(), (255, 2998, 68_534));
}

#[test]
fn cycles_wrap_modulo_2_to_the_32() {
    let mut state = valid(65_535, 4_294_901_760, 65_535, 1);
    assert_eq!(state.extended_sequence(), u32::MAX);
    assert!(state.update(0, 0, 0));
    assert_eq!(state, valid(0, 0, 65_535, 2));
    // 0 - 65535 + 1 is 4294901762, less 2 received is -65536.
    assert_eq!(figures(state.report_block(0, 0, 0)), (0, -65_536, 0));
    assert_eq!(state.expected_prior, 4_294_901_762);
}

// ---- A.1's restart

#[test]
fn two_in_sequence_restart() {
    let mut source = Source::of(&[0, 1, 2, 9000]);
    assert_eq!(source.words.received, 2);
    assert_eq!(source.figures(), (0, 0, 2));
    assert!(source.packet(9001));
    assert_eq!(source.words, valid(9001, 0, 9001, 1));
    assert_eq!(source.figures(), (0, 0, 9001));
}

#[test]
fn a_restart_interrupted_by_packets_in_order() {
    let mut source = Source::of(&[0, 1]);
    assert!(!source.packet(3001));
    assert!(source.packet(2));
    assert_eq!(source.words.bad_seq, 3002);
    assert!(source.packet(3002));
    assert_eq!(source.words, valid(3002, 0, 3002, 1));
    // Late ones and duplicates do not end the wait either.
    let mut source = Source::of(&[200, 201]);
    let accepted = [9000, 202, 202, 150, 9001].map(|seq| source.packet(seq));
    assert_eq!(accepted, [false, true, true, true, true]);
    assert_eq!(source.words, valid(9001, 0, 9001, 1));
}

/// The awaited number restarts only where it is a jump.
#[test]
fn the_awaited_number_in_order() {
    let mut source = Source::of(&[0, 1]);
    assert_eq!(
        [3001, 2, 3].map(|seq| source.packet(seq)),
        [false, true, true]
    );
    assert!(source.packet(3002));
    assert_eq!(source.words.base_seq, 1);
    assert_eq!(source.words.bad_seq, 3002);
    assert_eq!(source.figures(), (255, 2998, 3002));
}

#[test]
fn two_jumps_that_are_not_in_sequence() {
    let mut source = Source::of(&[0, 1]);
    for seq in [3001, 3001, 3003, 3002, 9000] {
        assert!(!source.packet(seq));
        assert_eq!(source.words.bad_seq, u32::from(seq) + 1);
    }
    assert!(source.packet(9001));
}

#[test]
fn a_restart_over_the_wrap() {
    let mut source = Source::of(&[40_000, 40_001]);
    assert!(!source.packet(65_535));
    assert_eq!(source.words.bad_seq, 0);
    assert!(source.packet(0));
    assert_eq!(source.words, valid(0, 0, 0, 1));
}

#[test]
fn a_start_alone_clears_the_awaited_number() {
    let mut source = Source::of(&[0, 1, 9000, 9001]);
    assert_eq!(source.words.bad_seq, NO_BAD_SEQ);
    assert!(!source.packet(20_000));
    source.block();
    assert_eq!(source.words.bad_seq, 20_001);
}

#[test]
fn a_restart_keeps_transit_and_jitter() {
    let mut source = Source::new(0);
    source.timed(0, 0, 0);
    source.timed(1, 0, 100);
    source.timed(2, 0, 140);
    assert_eq!((source.words.transit, source.words.jitter), (140, 40));
    // The jump changes neither; the restart counts against what was kept.
    source.timed(9000, 0, 9999);
    assert_eq!((source.words.transit, source.words.jitter), (140, 40));
    assert!(source.timed(9001, 0, 150));
    // 40 + 10 - 48 / 16.
    assert_eq!((source.words.transit, source.words.jitter), (150, 47));
}

// ---- jitter

#[test]
fn jitter_by_hand() {
    let mut source = Source::new(0);
    assert!(!source.timed(0, 100, 1000));
    assert_eq!((source.words.transit, source.words.jitter), (0, 0));
    // The first accepted packet only sets the transit.
    assert!(source.timed(1, 260, 1165));
    assert_eq!((source.words.transit, source.words.jitter), (905, 0));
    assert!(source.timed(2, 420, 1320));
    assert_eq!((source.words.transit, source.words.jitter), (900, 5));
    assert!(source.timed(3, 580, 1500));
    // 5 + 20 - 13 / 16.
    assert_eq!((source.words.transit, source.words.jitter), (920, 25));
    assert_eq!(source.block().map(|block| block.jitter), Some(1));
    assert!(source.timed(4, 740, 1660));
    // 25 + 0 - 33 / 16.
    assert_eq!((source.words.transit, source.words.jitter), (920, 23));
    // A duplicate and a late packet count too: 23 + 5 - 31 / 16, 27 + 5 - 35 / 16.
    assert!(source.timed(4, 740, 1665));
    assert_eq!(source.words.jitter, 27);
    assert!(source.timed(3, 740, 1660));
    assert_eq!(source.words.jitter, 30);
}

/// The jitter after a packet with that difference of transits.
fn jitter(before: u32, difference: u32) -> u32 {
    let mut state = Reception {
        jitter: before,
        transit: 4_000_000_000,
        ..valid(0, 0, 0, 1)
    };
    let transit = 4_000_000_000u32.wrapping_add(difference);
    let mut exact = ExactReception::new(0);
    assert_eq!([0, 1].map(|seq| exact.update(seq, 0, 0)), [false, true]);
    (exact.transit, exact.jitter) = (state.transit.into(), before.into());
    assert!(state.update(1, 4_294_967_000, transit.wrapping_add(4_294_967_000)));
    assert!(exact.update(1, 4_294_967_000, transit.wrapping_add(4_294_967_000)));
    assert_eq!(state.transit, transit);
    assert_eq!(exact.jitter, state.jitter.into());
    state.jitter
}

#[test]
fn a_transit_difference_is_read_as_signed() {
    assert_eq!(jitter(0, 0), 0);
    assert_eq!(jitter(0, 1), 1);
    assert_eq!(jitter(0, u32::MAX), 1);
    assert_eq!(jitter(0, 2_147_483_647), 2_147_483_647);
    assert_eq!(jitter(0, 2_147_483_649), 2_147_483_647);
    // -2^31 counts 2^31.
    assert_eq!(jitter(0, 2_147_483_648), 2_147_483_648);
}

#[test]
fn jitter_is_rounded() {
    assert_eq!(jitter(7, 0), 7);
    assert_eq!(jitter(8, 0), 7);
    assert_eq!(jitter(23, 0), 22);
    assert_eq!(jitter(24, 0), 22);
    assert_eq!(jitter(8, 3), 10);
}

#[test]
fn sums_of_jitter_wrap() {
    // The sum with 8 is 4294967295, then 0.
    assert_eq!(jitter(4_294_967_287, 0), 4_026_531_832);
    assert_eq!(jitter(4_294_967_288, 0), 4_294_967_288);
    // The sum with the difference.
    assert_eq!(jitter(u32::MAX, 1), 0);
    assert_eq!(jitter(u32::MAX, 0), u32::MAX);
    // 3000000000 + 2147483648 - 2^32 - 187500000.
    assert_eq!(jitter(3_000_000_000, 2_147_483_648), 665_016_352);
}

#[test]
fn a_block_shows_a_sixteenth_of_the_jitter() {
    for (jitter, shown) in [(0, 0), (15, 0), (16, 1), (31, 1), (u32::MAX, 268_435_455)] {
        let mut state = Reception {
            jitter,
            ..valid(0, 0, 0, 1)
        };
        let block = state.report_block(0, 0, 0).expect("a block");
        assert_eq!((block.jitter, state.jitter), (shown, jitter));
    }
}

#[test]
fn times_wrap() {
    let mut source = Source::new(0);
    source.timed(0, 0, 0);
    assert!(source.timed(1, 4_294_967_290, 10));
    assert_eq!(source.words.transit, 16);
    assert!(source.timed(2, 154, 0));
    assert_eq!(source.words.transit, 4_294_967_142);
    assert_eq!(source.words.jitter, 170);
}

// ---- A.3

#[test]
fn the_caller_gives_three_numbers() {
    let mut source = Source::of(&[0, 1]);
    let wanted = Block {
        ssrc: 7,
        extended_sequence: 1,
        last_sr: 8,
        delay: 9,
        ..Block::default()
    };
    assert_eq!(source.block(), Some(wanted));
    let mut state = source.words;
    let most = state.report_block(u32::MAX, u32::MAX, u32::MAX);
    let block = most.expect("a block");
    assert_eq!([block.ssrc, block.last_sr, block.delay], [u32::MAX; 3]);
}

#[test]
fn the_first_block_after_a_start_and_the_next() {
    let mut source = Source::of(&[0, 1, 4]);
    // 1 to 4 expected, two received.
    assert_eq!(source.figures(), (128, 2, 4));
    assert_eq!(
        (source.words.expected_prior, source.words.received_prior),
        (4, 2)
    );
    // Two in a row: nothing expected since.
    assert_eq!(source.figures(), (0, 2, 4));
    assert!(source.packet(5));
    assert_eq!(source.figures(), (0, 2, 5));
    assert!(source.packet(9));
    // 3 of 4.
    assert_eq!(source.figures(), (192, 5, 9));
    // Only duplicates since: nothing expected, and one received.
    assert!(source.packet(9));
    assert_eq!(source.figures(), (0, 4, 9));
}

#[test]
fn losses_before_a_restart_are_forgotten() {
    let mut source = Source::of(&[0, 1, 1000]);
    assert_eq!(source.figures(), (255, 998, 1000));
    assert_eq!(
        [9000, 9001, 9003].map(|seq| source.packet(seq)),
        [false, true, true]
    );
    assert_eq!(source.figures(), (85, 1, 9003));
}

/// The loss where so many are expected and received.
fn lost(expected: u32, received: u32) -> i32 {
    let base_seq = 1u32.wrapping_sub(expected);
    let mut state = valid(0, 0, base_seq, received);
    let block = state.report_block(0, 0, 0).expect("a block");
    assert_eq!(
        (state.expected_prior, state.received_prior),
        (expected, received)
    );
    block.cumulative_lost
}

#[test]
fn losses_are_clamped() {
    assert_eq!(lost(8_388_607, 0), 8_388_607);
    assert_eq!(lost(8_388_608, 0), 8_388_607);
    assert_eq!(lost(8_388_607, 1), 8_388_606);
    assert_eq!(lost(1, 8_388_609), -8_388_608);
    assert_eq!(lost(1, 8_388_610), -8_388_608);
    assert_eq!(lost(1, 8_388_608), -8_388_607);
    assert_eq!(lost(2_147_483_647, 0), 8_388_607);
    // Read as signed.
    assert_eq!(lost(2_147_483_648, 0), -8_388_608);
    assert_eq!(lost(1, 2_147_483_649), -8_388_608);
    assert_eq!(lost(1, 2_147_483_650), 8_388_607);
    assert_eq!(lost(0, 1), -1);
    assert_eq!(lost(0, u32::MAX), 1);
}

/// The fraction where so many were expected and received since the last block.
fn fraction(expected: u32, received: u32) -> u8 {
    let mut state = Reception {
        expected_prior: 1u32.wrapping_sub(expected),
        received_prior: 0u32.wrapping_sub(received),
        ..valid(0, 0, 0, 0)
    };
    let block = state.report_block(0, 0, 0).expect("a block");
    block.fraction_lost
}

#[test]
fn the_fraction() {
    assert_eq!(fraction(4, 3), 64);
    assert_eq!(fraction(256, 255), 1);
    assert_eq!(fraction(257, 256), 0);
    assert_eq!(fraction(3, 2), 85);
    // 255, and 256 of 256.
    assert_eq!(fraction(256, 1), 255);
    assert_eq!(fraction(256, 0), 255);
    assert_eq!(fraction(1, 0), 255);
    // None lost, fewer than none, none expected.
    assert_eq!(fraction(3, 3), 0);
    assert_eq!(fraction(3, 5), 0);
    assert_eq!(fraction(0, 0), 0);
    assert_eq!(fraction(0, 5), 0);
    assert_eq!(fraction(0, u32::MAX), 0);
}

#[test]
fn the_fraction_does_not_overflow() {
    assert_eq!(fraction(1 << 25, 1 << 24), 128);
    assert_eq!(fraction(1 << 24, 0), 255);
    assert_eq!(fraction(1 << 31, 1), 255);
    // 256 x 2147483647 / 4294967295 is just below 128.
    assert_eq!(fraction(u32::MAX, 1 << 31), 127);
    // A loss of 2^31 reads as -2^31.
    assert_eq!(fraction(1 << 31, 0), 0);
    // One of 2147483647 of one expected.
    assert_eq!(fraction(1, 2_147_483_650), 255);
}

// ---- any state

#[test]
fn any_probation() {
    let state = Reception {
        probation: u32::MAX,
        ..valid(9, 1, 2, 3)
    };
    let mut next = state;
    assert!(!next.update(10, 5, 6));
    let wanted = Reception {
        max_seq: 10,
        probation: 4_294_967_294,
        ..state
    };
    assert_eq!(next, wanted);
    let mut other = state;
    assert!(!other.update(9, 5, 6));
    assert_eq!(
        other,
        Reception {
            probation: 1,
            ..state
        }
    );
    assert_eq!(other.report_block(1, 2, 3), None);
}

#[test]
fn the_end_of_probation_keeps_the_jitter_alone() {
    let any = Reception {
        max_seq: 65_535,
        cycles: 1,
        base_seq: 2,
        bad_seq: 3,
        probation: 1,
        received: 4,
        expected_prior: 5,
        received_prior: 6,
        transit: 7,
        jitter: 8,
    };
    let mut ended = any;
    assert!(ended.update(0, 1, 3));
    let wanted = Reception {
        transit: 2,
        jitter: 8,
        ..valid(0, 0, 0, 1)
    };
    assert_eq!(ended, wanted);
}

#[test]
fn any_bad_seq() {
    for (bad_seq, place) in [
        (0, Place::Restart),
        (1, Place::Jump),
        (65_535, Place::Jump),
        (65_536, Place::Jump),
        (65_537, Place::Jump),
        (u32::MAX, Place::Jump),
    ] {
        let state = Reception {
            bad_seq,
            ..valid(30_000, 0, 0, 1)
        };
        assert_eq!(state.place(0), place, "{bad_seq}");
    }
    let mut state = Reception {
        bad_seq: 65_536,
        ..valid(30_000, 0, 0, 1)
    };
    assert!(!state.update(0, 0, 0));
    assert_eq!(state.bad_seq, 1);
}

#[test]
fn any_counts() {
    let mut state = valid(0, 1, u32::MAX, u32::MAX);
    assert!(state.update(0, 0, 0));
    assert_eq!(state.received, 0);
    // Cycles that are no multiple of 65536: 1 + 0 - (2^32 - 1) + 1 = 3.
    assert_eq!(figures(state.report_block(0, 0, 0)), (255, 3, 1));
    let mut state = valid(65_535, u32::MAX, 0, 0);
    assert_eq!(figures(state.report_block(0, 0, 0)), (255, 65_535, 65_534));
}

// ---- the supposition

/// A source since whose start so much came.
fn since(came: i128, accepted: i128, moved: i128) -> ExactReception {
    let mut exact = ExactReception::new(0);
    assert_eq!([0, 1].map(|seq| exact.update(seq, 0, 0)), [false, true]);
    if let Phase::Valid(since) = &mut exact.phase {
        (since.came, since.accepted, since.moved) = (came, accepted, moved);
    }
    exact
}

/// The figures of both readings.
fn readings(mut exact: ExactReception) -> [(u8, i32, u32); 2] {
    let mut words = exact.in_words().expect("valid");
    [words.report_block(0, 0, 0), exact.report_block(0, 0, 0)].map(figures)
}

#[test]
fn the_last_that_is_supposed() {
    let ahead = since(1, 2, HALF - 1);
    assert!(ahead.supposed());
    assert_eq!(readings(ahead), [(255, 8_388_607, 2_147_483_648); 2]);
    let alone = since(1, 1, HALF - 1);
    assert_eq!(readings(alone), [(255, 8_388_607, 2_147_483_648); 2]);
    let duplicates = since(HALF - 1, HALF, 0);
    assert!(duplicates.supposed());
    assert_eq!(readings(duplicates), [(0, -8_388_608, 1); 2]);
}

#[test]
fn beyond_the_supposition_the_readings_part() {
    let ahead = since(1, 1, HALF);
    assert!(!ahead.supposed());
    let wanted = [
        (0, -8_388_608, 2_147_483_649),
        (255, 8_388_607, 2_147_483_649),
    ];
    assert_eq!(readings(ahead), wanted);
    let duplicates = since(HALF + 1, HALF + 2, 0);
    assert!(!duplicates.supposed());
    assert_eq!(
        readings(duplicates),
        [(255, 8_388_607, 1), (0, -8_388_608, 1)]
    );
}

/// As far as packets with the longest step that is no jump can go.
#[test]
fn a_long_way_by_steps_of_2999() {
    let mut source = Source::of(&[0, 1]);
    let steps = (HALF - 1) / 2999;
    assert_eq!(steps, 716_066);
    for step in 1..=steps {
        assert!(source.packet((1 + 2999 * step) as u16));
    }
    // 716066 x 2999 is 2147481934; one step more is not supposed.
    assert_eq!(source.figures(), (255, 8_388_607, 2_147_481_935));
    assert!(source.exact.update((1 + 2999 * (steps + 1)) as u16, 0, 0));
    assert!(!source.exact.supposed());
}
