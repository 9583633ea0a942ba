//! Order 3 of document 02, "Reception figures": what RFC 3550 keeps of a source in
//! A.1, A.3 and A.8, and the report block that is made of it.
//!
//! There are two readings. `Reception` has the widths of the RFC and is defined on
//! any state. `ExactReception` counts over exact integers since the last start. They
//! give the same wherever the order's supposition holds.

use crate::packet::{Block, LOSS_LEAST, LOSS_MOST};

/// A.1's constants: RTP_SEQ_MOD, MAX_DROPOUT, MAX_MISORDER and MIN_SEQUENTIAL.
const SEQ_MOD: u32 = 65_536;
const MAX_DROPOUT: u16 = 3000;
const MAX_MISORDER: u16 = 100;
const MIN_SEQUENTIAL: u32 = 2;

/// The difference of the last number that is within the dropout.
const LAST_AHEAD: u16 = MAX_DROPOUT - 1;

/// The difference of the first number that is behind by less than the misorder.
const FIRST_BEHIND: u16 = 0u16.wrapping_sub(MAX_MISORDER - 1);

/// What a source is told: that a packet came, or that a block is wanted.
#[derive(Clone, Copy, Debug, PartialEq, Eq, Hash)]
pub enum Event {
    /// Timestamp and arrival are in the same units.
    Packet {
        seq: u16,
        timestamp: u32,
        arrival: u32,
    },
    Block {
        ssrc: u32,
        last_sr: u32,
        delay: u32,
    },
}

/// What is answered.
#[derive(Clone, Copy, Debug, PartialEq, Eq, Hash)]
pub enum Reply {
    /// Whether A.1 accepts the packet as valid.
    Packet(bool),
    /// The block; none in probation.
    Block(Option<Block>),
}

/// What both readings do.
pub trait Receive {
    fn update(&mut self, seq: u16, timestamp: u32, arrival: u32) -> bool;

    fn report_block(&mut self, ssrc: u32, last_sr: u32, delay: u32) -> Option<Block>;

    fn take(&mut self, event: Event) -> Reply {
        match event {
            Event::Packet {
                seq,
                timestamp,
                arrival,
            } => Reply::Packet(self.update(seq, timestamp, arrival)),
            Event::Block {
                ssrc,
                last_sr,
                delay,
            } => Reply::Block(self.report_block(ssrc, last_sr, delay)),
        }
    }
}

// ---- in the widths of the RFC

/// The state, in the RFC's names. Any numbers are one.
#[derive(Clone, Copy, Debug, Default, PartialEq, Eq, Hash)]
pub struct Reception {
    pub max_seq: u16,
    pub cycles: u32,
    pub base_seq: u32,
    pub bad_seq: u32,
    pub probation: u32,
    pub received: u32,
    pub expected_prior: u32,
    pub received_prior: u32,
    pub transit: u32,
    pub jitter: u32,
}

/// Where a packet stands by A.1.
#[derive(Clone, Copy, Debug, PartialEq, Eq, Hash, PartialOrd, Ord)]
pub enum Place {
    /// The source stays in probation.
    Probation,
    /// It ends probation.
    Start,
    /// The highest number again, or ahead of it by less than 3000.
    Ahead,
    /// Behind the highest number by less than 100.
    Behind,
    /// Neither, and not next to the last packet that was neither.
    Jump,
    /// Neither, but next to the last packet that was neither.
    Restart,
}

impl Place {
    pub fn accepted(self) -> bool {
        !matches!(self, Place::Probation | Place::Jump)
    }
}

impl Reception {
    /// A source whose first packet has that number. The packet itself is yet to come.
    pub fn new(seq: u16) -> Self {
        Reception {
            max_seq: seq.wrapping_sub(1),
            base_seq: seq.into(),
            bad_seq: SEQ_MOD + 1,
            probation: MIN_SEQUENTIAL,
            ..Reception::default()
        }
    }

    /// Its ten numbers, in the order of the fields.
    pub fn numbers(&self) -> [u32; 10] {
        [
            self.max_seq.into(),
            self.cycles,
            self.base_seq,
            self.bad_seq,
            self.probation,
            self.received,
            self.expected_prior,
            self.received_prior,
            self.transit,
            self.jitter,
        ]
    }

    pub fn place(&self, seq: u16) -> Place {
        match (self.probation, seq.wrapping_sub(self.max_seq)) {
            (1, 1) => Place::Start,
            (1.., _) => Place::Probation,
            (0, 0..=LAST_AHEAD) => Place::Ahead,
            (0, FIRST_BEHIND..) => Place::Behind,
            (0, _) if self.bad_seq == u32::from(seq) => Place::Restart,
            (0, _) => Place::Jump,
        }
    }

    /// The highest number with its cycles.
    pub fn extended_sequence(&self) -> u32 {
        self.cycles.wrapping_add(self.max_seq.into())
    }

    /// The state after a packet in that place, but for transit and jitter.
    fn moved(self, seq: u16, place: Place) -> Reception {
        let received = self.received.wrapping_add(1);
        match place {
            Place::Probation => Reception {
                max_seq: seq,
                probation: match seq.wrapping_sub(self.max_seq) {
                    1 => self.probation - 1,
                    _ => MIN_SEQUENTIAL - 1,
                },
                ..self
            },
            Place::Start | Place::Restart => Reception {
                max_seq: seq,
                probation: 0,
                received: 1,
                transit: self.transit,
                jitter: self.jitter,
                ..Reception::new(seq)
            },
            Place::Ahead => Reception {
                max_seq: seq,
                cycles: if seq < self.max_seq {
                    self.cycles.wrapping_add(SEQ_MOD)
                } else {
                    self.cycles
                },
                received,
                ..self
            },
            Place::Behind => Reception { received, ..self },
            Place::Jump => Reception {
                bad_seq: seq.wrapping_add(1).into(),
                ..self
            },
        }
    }

    /// A.8's jitter after a packet of that transit.
    fn jitter_after(&self, transit: u32) -> u32 {
        let difference = transit.wrapping_sub(self.transit) as i32;
        let sixteenth = self.jitter.wrapping_add(8) / 16;
        let sum = self.jitter.wrapping_add(difference.unsigned_abs());
        sum.wrapping_sub(sixteenth)
    }
}

impl Receive for Reception {
    fn update(&mut self, seq: u16, timestamp: u32, arrival: u32) -> bool {
        let place = self.place(seq);
        *self = self.moved(seq, place);
        if place.accepted() {
            let transit = arrival.wrapping_sub(timestamp);
            if place != Place::Start {
                self.jitter = self.jitter_after(transit);
            }
            self.transit = transit;
        }
        place.accepted()
    }

    fn report_block(&mut self, ssrc: u32, last_sr: u32, delay: u32) -> Option<Block> {
        if self.probation != 0 {
            return None;
        }
        let extended_sequence = self.extended_sequence();
        let expected = extended_sequence
            .wrapping_sub(self.base_seq)
            .wrapping_add(1);
        let lost = expected.wrapping_sub(self.received) as i32;
        let expected_since = expected.wrapping_sub(self.expected_prior);
        let received_since = self.received.wrapping_sub(self.received_prior);
        let lost_since = expected_since.wrapping_sub(received_since) as i32;
        (self.expected_prior, self.received_prior) = (expected, self.received);
        Some(Block {
            ssrc,
            fraction_lost: fraction(lost_since, expected_since),
            cumulative_lost: lost.clamp(LOSS_LEAST, LOSS_MOST),
            extended_sequence,
            jitter: self.jitter / 16,
            last_sr,
            delay,
        })
    }
}

/// A.3's fraction in 256ths, at most 255; 0 where none was lost or none expected.
fn fraction(lost: i32, expected: u32) -> u8 {
    match u64::try_from(lost) {
        Ok(lost) if expected != 0 => (256 * lost / u64::from(expected)).min(255) as u8,
        _ => 0,
    }
}

// ---- over exact integers

const NUMBERS: i128 = 1 << 16;
const WORDS: i128 = 1 << 32;

/// The differences that are a jump.
const FIRST_JUMP: i128 = 3000;
const LAST_JUMP: i128 = NUMBERS - 100;

/// A source whose counts are exact. Transit and jitter are modulo 2^32 by the order.
#[derive(Clone, Copy, Debug, PartialEq, Eq, Hash)]
pub struct ExactReception {
    pub phase: Phase,
    pub transit: i128,
    pub jitter: i128,
}

#[derive(Clone, Copy, Debug, PartialEq, Eq, Hash)]
pub enum Phase {
    /// How many packets came in sequence, and the number that goes on with them.
    Probation {
        in_sequence: u32,
        next: u16,
    },
    Valid(Since),
}

/// What came since the last start: the end of probation or a restart.
#[derive(Clone, Copy, Debug, PartialEq, Eq, Hash)]
pub struct Since {
    /// The number of the starting packet.
    pub start: u16,
    /// The packets that came after it.
    pub came: i128,
    /// The packets accepted from it on.
    pub accepted: i128,
    /// The sum of the later ones' differences below 3000.
    pub moved: i128,
    /// The number next to the last jump.
    pub after_jump: Option<u16>,
    /// What was expected and what was accepted by the last block; 0 if there is none.
    pub expected_prior: i128,
    pub accepted_prior: i128,
}

impl ExactReception {
    pub fn new(seq: u16) -> Self {
        ExactReception {
            phase: Phase::Probation {
                in_sequence: 0,
                next: seq,
            },
            transit: 0,
            jitter: 0,
        }
    }

    /// The state in the widths of the RFC; none in probation.
    pub fn in_words(&self) -> Option<Reception> {
        let Phase::Valid(since) = self.phase else {
            return None;
        };
        let (highest, word) = (since.highest(), |exact: i128| exact as u32);
        Some(Reception {
            max_seq: highest as u16,
            cycles: word(highest - highest % NUMBERS),
            base_seq: since.start.into(),
            bad_seq: since.after_jump.map_or(65_537, u32::from),
            probation: 0,
            received: word(since.accepted),
            expected_prior: word(since.expected_prior),
            received_prior: word(since.accepted_prior),
            transit: word(self.transit),
            jitter: word(self.jitter),
        })
    }

    /// Whether the order's supposition holds.
    pub fn supposed(&self) -> bool {
        match self.phase {
            Phase::Probation { .. } => true,
            Phase::Valid(since) => since.came < WORDS / 2 && since.moved < WORDS / 2,
        }
    }
}

impl Receive for ExactReception {
    fn update(&mut self, seq: u16, timestamp: u32, arrival: u32) -> bool {
        let first = matches!(self.phase, Phase::Probation { .. });
        let accepted = self.phase.packet(seq);
        if accepted {
            let transit = (i128::from(arrival) - i128::from(timestamp)).rem_euclid(WORDS);
            if !first {
                let away = signed(transit - self.transit).abs();
                let sixteenth = (self.jitter + 8).rem_euclid(WORDS) / 16;
                self.jitter = (self.jitter + away - sixteenth).rem_euclid(WORDS);
            }
            self.transit = transit;
        }
        accepted
    }

    fn report_block(&mut self, ssrc: u32, last_sr: u32, delay: u32) -> Option<Block> {
        let Phase::Valid(since) = &mut self.phase else {
            return None;
        };
        let (expected, accepted) = (since.moved + 1, since.accepted);
        let lost = (expected - accepted).clamp(LOSS_LEAST.into(), LOSS_MOST.into());
        let expected_since = expected - since.expected_prior;
        let lost_since = expected_since - (accepted - since.accepted_prior);
        let share = (256 * lost_since).checked_div_euclid(expected_since);
        (since.expected_prior, since.accepted_prior) = (expected, accepted);
        Some(Block {
            ssrc,
            fraction_lost: share.map_or(0, |share| share.clamp(0, 255) as u8),
            cumulative_lost: lost as i32,
            extended_sequence: since.highest() as u32,
            jitter: (self.jitter / 16) as u32,
            last_sr,
            delay,
        })
    }
}

/// A number modulo 2^32, read as signed.
fn signed(number: i128) -> i128 {
    (number + WORDS / 2).rem_euclid(WORDS) - WORDS / 2
}

impl Phase {
    /// Whether A.1 accepts a packet of that number.
    fn packet(&mut self, seq: u16) -> bool {
        let (in_sequence, next) = match self {
            Phase::Probation { in_sequence, next } => (*in_sequence, *next),
            Phase::Valid(since) => return since.packet(seq),
        };
        let in_sequence = if seq == next { in_sequence + 1 } else { 1 };
        let valid = in_sequence == 2;
        *self = if valid {
            Phase::Valid(Since::start(seq))
        } else {
            let next = seq.wrapping_add(1);
            Phase::Probation { in_sequence, next }
        };
        valid
    }
}

impl Since {
    fn start(seq: u16) -> Since {
        Since {
            start: seq,
            came: 0,
            accepted: 1,
            moved: 0,
            after_jump: None,
            expected_prior: 0,
            accepted_prior: 0,
        }
    }

    /// The extended sequence number.
    pub fn highest(&self) -> i128 {
        i128::from(self.start) + self.moved
    }

    fn packet(&mut self, seq: u16) -> bool {
        self.came += 1;
        let difference = (i128::from(seq) - self.highest()).rem_euclid(NUMBERS);
        match difference {
            FIRST_JUMP..=LAST_JUMP if self.after_jump == Some(seq) => *self = Since::start(seq),
            FIRST_JUMP..=LAST_JUMP => {
                self.after_jump = Some(seq.wrapping_add(1));
                return false;
            }
            _ => {
                self.accepted += 1;
                if difference < FIRST_JUMP {
                    self.moved += difference;
                }
            }
        }
        true
    }
}
