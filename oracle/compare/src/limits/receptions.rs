//! Reception figures: both sides of every difference, count and sum, and short
//! histories.

use super::strings;
use crate::operation::Operation;
use model::*;

const NUMBERS: [u16; 6] = [0, 1, 2999, 32_768, 65_437, 65_535];

const DIFFERENCES: [u16; 14] = [
    0, 1, 2, 2998, 2999, 3000, 3001, 32_767, 32_768, 65_435, 65_436, 65_437, 65_438, 65_535,
];

const WORDS: [u32; 10] = [
    0,
    1,
    2,
    65_535,
    65_536,
    65_537,
    0x7FFF_FFFF,
    0x8000_0000,
    0xFFFF_0000,
    u32::MAX,
];

/// Counts and losses where the fraction or the clamp changes.
const COUNTS: [u32; 20] = [
    0,
    1,
    2,
    3,
    255,
    256,
    257,
    8_388_606,
    8_388_607,
    8_388_608,
    8_388_609,
    0x0100_0000,
    0x7FFF_FFFF,
    0x8000_0000,
    0x8000_0001,
    0u32.wrapping_sub(8_388_609),
    0u32.wrapping_sub(8_388_608),
    0u32.wrapping_sub(8_388_607),
    u32::MAX - 1,
    u32::MAX,
];

pub(super) fn receptions(visit: &mut dyn FnMut(Operation)) {
    sequence_numbers(visit);
    differences(visit);
    times(visit);
    losses(visit);
    histories(visit);
}

fn packet(state: &Reception, seq: u16) -> Operation {
    let event = Event::Packet {
        seq,
        timestamp: 1000,
        arrival: 1160,
    };
    Operation::Receive(*state, event)
}

fn block(state: &Reception) -> Operation {
    let event = Event::Block {
        ssrc: 1,
        last_sr: 2,
        delay: 3,
    };
    Operation::Receive(*state, event)
}

/// A packet of every number, and a new source of some.
fn sequence_numbers(visit: &mut dyn FnMut(Operation)) {
    for seq in 0..=u16::MAX {
        visit(packet(&Reception::default(), seq));
        if seq % 257 < 2 {
            visit(Operation::NewReception(seq));
        }
    }
}

fn differences(visit: &mut dyn FnMut(Operation)) {
    for max_seq in NUMBERS {
        for difference in DIFFERENCES {
            places(max_seq, max_seq.wrapping_add(difference), visit);
        }
    }
}

/// A packet after every probation, awaited number and number of cycles.
fn places(max_seq: u16, seq: u16, visit: &mut dyn FnMut(Operation)) {
    let next = u32::from(seq.wrapping_add(1));
    for probation in [0, 1, 2, 3, u32::MAX] {
        for bad_seq in [seq.into(), next, 65_536 + u32::from(seq), 65_537, u32::MAX] {
            for cycles in [0, 1, 0xFFFF_0000, u32::MAX] {
                let state = Reception {
                    max_seq,
                    cycles,
                    base_seq: 1,
                    bad_seq,
                    probation,
                    received: u32::MAX,
                    expected_prior: 5,
                    received_prior: 6,
                    transit: 7,
                    jitter: 8,
                };
                visit(packet(&state, seq));
                visit(block(&state));
            }
        }
    }
}

/// Transits apart by every limit, with every jitter, in and after probation.
fn times(visit: &mut dyn FnMut(Operation)) {
    let rounded = [7, 8, 23, 24, 0u32.wrapping_sub(9), 0u32.wrapping_sub(8)];
    for jitter in WORDS.into_iter().chain(rounded) {
        for transit in WORDS {
            for difference in WORDS {
                for probation in [0, 1] {
                    let state = Reception {
                        probation,
                        transit,
                        jitter,
                        ..Reception::default()
                    };
                    let event = Event::Packet {
                        seq: 1,
                        timestamp: difference,
                        arrival: transit.wrapping_add(difference).wrapping_add(difference),
                    };
                    visit(Operation::Receive(state, event));
                }
            }
        }
    }
}

/// Every loss with every number expected, since the start and since the last block.
fn losses(visit: &mut dyn FnMut(Operation)) {
    for expected in COUNTS {
        for lost in COUNTS {
            let received = expected.wrapping_sub(lost);
            let whole = Reception {
                base_seq: 1u32.wrapping_sub(expected),
                received,
                ..Reception::default()
            };
            let since = Reception {
                expected_prior: 1u32.wrapping_sub(expected),
                received_prior: 0u32.wrapping_sub(received),
                ..Reception::default()
            };
            visit(block(&whole));
            visit(block(&since));
            for expected_prior in COUNTS {
                let state = Reception {
                    expected_prior,
                    ..whole
                };
                visit(block(&state));
            }
        }
    }
}

/// Every list of up to five packets of a few numbers, with a block at its end.
fn histories(visit: &mut dyn FnMut(Operation)) {
    let numbers = [0, 1, 2, 3001, 3002, 65_437, 65_438];
    let places: Vec<u8> = (0..numbers.len() as u8).collect();
    for count in 0..6 {
        strings(&places, count, &mut |places| {
            let event = |place: &u8| Event::Packet {
                seq: numbers[usize::from(*place)],
                timestamp: 0,
                arrival: u32::from(*place) * 100,
            };
            let mut events: Vec<Event> = places.iter().map(event).collect();
            events.push(Event::Block {
                ssrc: 1,
                last_sr: 2,
                delay: 3,
            });
            visit(Operation::History(0, events));
        });
    }
}
