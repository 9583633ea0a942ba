//! Reception figures: any state, states that exact counts give, and histories of
//! packets and blocks.

use super::packets::*;
use crate::operation::Operation;
use crate::rng::Rng;
use model::*;

/// Differences on both sides of a dropout and of a misorder.
const EDGES: [u16; 8] = [2998, 2999, 3000, 3001, 65_435, 65_436, 65_437, 65_438];

/// Numbers of 32 bits where something ends.
const LIMITS: [u32; 9] = [
    0,
    256,
    65_536,
    8_388_608,
    1 << 24,
    1 << 31,
    (1 << 31) + 8_388_608,
    0u32.wrapping_sub(8_388_608),
    0u32.wrapping_sub(65_536),
];

/// Transit differences at the ends of the signed numbers.
const FAR: [u32; 3] = [0x7FFF_FFFF, 0x8000_0000, 0x8000_0001];

/// The supposition's limit.
const HALF: i128 = 1 << 31;

/// What a history starts from.
#[derive(Clone, Copy, Debug)]
pub enum Beginning {
    New(u16),
    /// A state that is handed in.
    Words(Reception),
    /// The same, of exact counts.
    Exact(ExactReception),
}

impl Beginning {
    pub fn words(&self) -> Reception {
        match self {
            Beginning::New(seq) => Reception::new(*seq),
            Beginning::Words(words) => *words,
            Beginning::Exact(exact) => exact.in_words().expect("a source not in probation"),
        }
    }

    pub fn exact(&self) -> Option<ExactReception> {
        match self {
            Beginning::New(seq) => Some(ExactReception::new(*seq)),
            Beginning::Words(_) => None,
            Beginning::Exact(exact) => Some(*exact),
        }
    }
}

/// Mostly up to 200 events, rarely thousands.
pub fn history(rng: &mut Rng) -> (Beginning, Vec<Event>) {
    let beginning = match rng.below(4) {
        0 => Beginning::Words(reception(rng)),
        1 => Beginning::Exact(exact(rng)),
        _ => Beginning::New(sequence(rng)),
    };
    let mut sender = Sender::any(rng);
    let count = match rng.below(500) {
        0 => {
            sender.steps = &[Step::Far];
            3000 + rng.below(3000)
        }
        1..=99 => 1 + rng.below(8),
        _ => 1 + rng.below(200),
    };
    (beginning, sender.events(rng, beginning.words(), count))
}

pub(super) fn receive(rng: &mut Rng) -> Operation {
    let mut sender = Sender::any(rng);
    match rng.below(16) {
        0 => Operation::NewReception(sequence(rng)),
        1 | 2 => {
            let (first, count) = (sequence(rng), rng.below(12));
            Operation::History(first, sender.events(rng, Reception::new(first), count))
        }
        _ => {
            let state = match rng.below(3) {
                0 => Beginning::Exact(exact(rng)).words(),
                _ => reception(rng),
            };
            Operation::Receive(state, sender.event(rng, &state))
        }
    }
}

// ---- states

fn sequence(rng: &mut Rng) -> u16 {
    match rng.below(4) {
        0 => rng.pick(&[0, 1, 2, 32_767, 32_768, 65_533, 65_534, 65_535]),
        _ => rng.draw() as u16,
    }
}

/// Small, near a limit, just below 2^32, or any.
fn number(rng: &mut Rng) -> u32 {
    match rng.below(5) {
        0 => rng.below(4) as u32,
        2 => u32::MAX - rng.below(50) as u32,
        1 => {
            let limit = rng.pick(&LIMITS);
            limit.wrapping_add(rng.below(5) as u32).wrapping_sub(2)
        }
        _ => rng.draw() as u32,
    }
}

/// Any state, mostly not in probation.
fn reception(rng: &mut Rng) -> Reception {
    let state = Reception {
        max_seq: sequence(rng),
        cycles: match rng.below(4) {
            0 => 0xFFFF_0000,
            1 | 2 => number(rng) & 0xFFFF_0000,
            _ => number(rng),
        },
        base_seq: match rng.below(2) {
            0 => number(rng),
            _ => sequence(rng).into(),
        },
        bad_seq: match rng.below(4) {
            0 => number(rng),
            1 => 65_536 + rng.below(2) as u32,
            _ => sequence(rng).into(),
        },
        probation: match rng.below(8) {
            0 => number(rng),
            1 => 1 + rng.below(2) as u32,
            _ => 0,
        },
        received: number(rng),
        expected_prior: number(rng),
        received_prior: number(rng),
        transit: number(rng),
        jitter: number(rng),
    };
    match rng.below(2) {
        0 => state,
        _ => with_losses(rng, state),
    }
}

/// The state with losses that are small or near a limit.
fn with_losses(rng: &mut Rng, state: Reception) -> Reception {
    let extended = state.extended_sequence();
    let expected = extended.wrapping_sub(state.base_seq).wrapping_add(1);
    let received = expected.wrapping_sub(number(rng));
    let expected_since = number(rng);
    let received_since = expected_since.wrapping_sub(number(rng));
    Reception {
        received,
        expected_prior: expected.wrapping_sub(expected_since),
        received_prior: received.wrapping_sub(received_since),
        ..state
    }
}

/// At most that many.
fn up_to(rng: &mut Rng, most: i128) -> i128 {
    i128::from(rng.draw()) % (most + 1)
}

/// A count that is small, on either side of the supposition's limit, or any within it.
fn count_to_half(rng: &mut Rng) -> i128 {
    match rng.below(4) {
        0 => up_to(rng, 300_000),
        1 => HALF - 1 - up_to(rng, 300),
        2 => HALF - 6000 + up_to(rng, 12_000),
        _ => up_to(rng, HALF - 1),
    }
}

/// Any counts since a start, with and without a block since then.
fn exact(rng: &mut Rng) -> ExactReception {
    let moved = count_to_half(rng);
    let loss = match rng.below(4) {
        0 => 8_388_605 + up_to(rng, 5),
        1 => -8_388_611 + up_to(rng, 5),
        2 => up_to(rng, 600) - 300,
        _ => moved - count_to_half(rng),
    };
    let accepted = (moved + 1 - loss).max(1);
    let came = accepted - 1 + up_to(rng, 3);
    let (expected_prior, accepted_prior) = match rng.below(3) {
        0 => (0, 0),
        1 => (1 + up_to(rng, moved), 1 + up_to(rng, accepted - 1)),
        _ => {
            let few = [up_to(rng, 400), up_to(rng, 400)];
            ((moved + 1 - few[0]).max(1), (accepted - few[1]).max(1))
        }
    };
    ExactReception {
        phase: Phase::Valid(Since {
            start: sequence(rng),
            came,
            accepted,
            moved,
            after_jump: rng.once_in(2).then(|| sequence(rng)),
            expected_prior,
            accepted_prior,
        }),
        transit: number(rng).into(),
        jitter: number(rng).into(),
    }
}

// ---- events

/// Where the next packet stands to the last.
#[derive(Clone, Copy)]
enum Step {
    Next,
    Again,
    Gap,
    /// A gap as long as it may be, or nearly.
    Far,
    Late,
    Edge,
    /// What goes on with the last jump.
    AfterJump,
    Any,
}

use Step::*;

const MANNERS: [&[Step]; 8] = [
    &[Next],
    &[Next, Next, Next, Next, Gap, Late, Again],
    &[Again, Again, Late, Next],
    &[Far, Far, Far, Next],
    &[Edge, Next],
    &[AfterJump, Edge, Next, Any],
    &[Any],
    &[Next, Again, Gap, Far, Late, Edge, AfterJump, Any],
];

struct Sender {
    steps: &'static [Step],
    /// How far apart transits are: 0 for not at all, 1 for a little, else any.
    loose: usize,
    /// A block comes once in so many events.
    blocks: usize,
}

impl Sender {
    fn any(rng: &mut Rng) -> Sender {
        Sender {
            steps: rng.pick(&MANNERS),
            loose: rng.below(3),
            blocks: rng.pick(&[2, 5, 20, 100]),
        }
    }

    /// Events from that state on. Mostly two packets in sequence come first. Unless
    /// there are many, the manner changes at times.
    fn events(&mut self, rng: &mut Rng, mut state: Reception, count: usize) -> Vec<Event> {
        let mut events = Vec::new();
        let in_sequence = if rng.once_in(4) { 0 } else { 2 };
        while events.len() < count {
            if count <= 200 && rng.once_in(60) {
                self.steps = rng.pick(&MANNERS);
            }
            let event = if events.len() < in_sequence {
                self.packet(rng, &state, Step::Next)
            } else {
                self.event(rng, &state)
            };
            state.take(event);
            events.push(event);
        }
        events
    }

    fn event(&self, rng: &mut Rng, state: &Reception) -> Event {
        if rng.once_in(self.blocks) {
            return Event::Block {
                ssrc: word(rng),
                last_sr: word(rng),
                delay: word(rng),
            };
        }
        let step = rng.pick(self.steps);
        self.packet(rng, state, step)
    }

    fn packet(&self, rng: &mut Rng, state: &Reception, step: Step) -> Event {
        let ahead = |difference: u16| state.max_seq.wrapping_add(difference);
        let seq = match step {
            Step::Next => ahead(1),
            Step::Again => ahead(0),
            Step::Gap => ahead(2 + rng.below(20) as u16),
            Step::Far => ahead(2999 - rng.below(3) as u16),
            Step::Late => ahead(0u16.wrapping_sub(1 + rng.below(99) as u16)),
            Step::Edge => ahead(rng.pick(&EDGES)),
            Step::AfterJump => state.bad_seq as u16,
            Step::Any => sequence(rng),
        };
        let timestamp = word(rng);
        let moved = match (self.loose, rng.below(8)) {
            (0, _) => 0,
            (1, _) => (rng.below(400) as u32).wrapping_sub(200),
            (_, 0..=3) => rng.pick(&FAR),
            _ => rng.draw() as u32,
        };
        Event::Packet {
            seq,
            timestamp,
            arrival: timestamp.wrapping_add(state.transit).wrapping_add(moved),
        }
    }
}
