//! Runs histories of a source through the C functions: packets and blocks, each with
//! the state that the last returned.
//!
//!     receptions [COUNT] [SEED]
//!
//! COUNT histories are drawn. Each starts from a new source, from any state that is
//! handed in, or from one whose counts are exact integers, often near a limit. Reply
//! and state must be those of the model in the widths of the RFC, and where order 3's
//! supposition holds those of the model over exact integers. Then come histories of
//! millions of packets, past the supposition's limit and past the least loss. It prints
//! how many there are of each kind, and the exit status is 1 where something differs.

use compare::generate::{history, Beginning};
use compare::histories::Sides;
use compare::library::{about_library, watched};
use compare::operation::Operation;
use compare::rng::Rng;
use model::*;
use std::collections::BTreeMap;
use std::process::ExitCode;

/// Differences printed in full.
const SHOWN: usize = 20;

fn main() -> ExitCode {
    let (count, seed) = compare::count_and_seed(&mut std::env::args().skip(1), 100_000);
    println!("{}", about_library());
    let mut rng = Rng::new(seed);
    let mut counts = Counts::default();
    for _ in 0..count {
        let (beginning, events) = history(&mut rng);
        counts.run(&beginning, events.into_iter());
    }
    // 716,066 steps of 2999 are the last below 2^31, and 1,432,132 below 2^32.
    counts.run(&Beginning::New(65_535), long(2999, 1_433_000, 716_067, 50));
    // 8,388,609 packets of one number are 8,388,608 more than were expected.
    counts.run(&Beginning::New(65_535), long(0, 8_388_620, 8_388_600, 1));
    counts.print(count);
    ExitCode::from(u8::from(counts.differences > 0))
}

/// So many packets: 65535 and 0, which start the source, and then each a step ahead.
/// From one place on there is a block after every few.
fn long(step: u64, packets: u64, from: u64, every: u64) -> impl Iterator<Item = Event> {
    let packet = move |at: u64| Event::Packet {
        seq: match at {
            0 => 65_535,
            _ => (step * (at - 1)) as u16,
        },
        timestamp: (160 * at) as u32,
        arrival: (160 * at + at % 7 * 13) as u32,
    };
    let block = move |at: u64| Event::Block {
        ssrc: at as u32,
        last_sr: 1,
        delay: 2,
    };
    let due = move |at: u64| at >= from && at % every == from % every;
    (0..packets).flat_map(move |at| {
        [Some(packet(at)), due(at).then(|| block(at))]
            .into_iter()
            .flatten()
    })
}

#[derive(Default)]
struct Counts {
    histories: BTreeMap<&'static str, usize>,
    packets: BTreeMap<&'static str, usize>,
    /// Where the last packet of the history stood.
    last: Option<Place>,
    accepted: usize,
    not_accepted: usize,
    wraps: BTreeMap<&'static str, usize>,
    blocks: BTreeMap<&'static str, usize>,
    losses: BTreeMap<&'static str, usize>,
    fractions: BTreeMap<&'static str, usize>,
    differences: usize,
}

fn count(counts: &mut BTreeMap<&'static str, usize>, class: &'static str) {
    *counts.entry(class).or_default() += 1;
}

impl Counts {
    /// A history up to its end or to the first difference.
    fn run(&mut self, beginning: &Beginning, mut events: impl Iterator<Item = Event>) {
        let from = match beginning {
            Beginning::New(_) => "from a new source",
            Beginning::Words(_) => "from any state",
            Beginning::Exact(_) => "from exact counts",
        };
        count(&mut self.histories, from);
        self.last = None;
        let ran = Sides::of(beginning)
            .and_then(|mut sides| events.try_for_each(|event| self.event(&mut sides, event)));
        if let Err(difference) = ran {
            self.differences += 1;
            if self.differences <= SHOWN {
                println!("difference: {difference}\nin a history {from}: {beginning:?}");
            }
        }
    }

    fn event(&mut self, sides: &mut Sides, event: Event) -> Result<(), String> {
        let before = sides.words;
        watched(Operation::Receive(before, event));
        match (event, sides.take(event)?) {
            (Event::Packet { seq, .. }, Reply::Packet(accepted)) => {
                let (place, difference) = (before.place(seq), seq.wrapping_sub(before.max_seq));
                self.accepted += usize::from(accepted);
                self.not_accepted += usize::from(!accepted);
                count(
                    &mut self.packets,
                    packet_class(place, difference, self.last),
                );
                self.note_wraps(&before, &sides.words, place);
                self.last = Some(place);
            }
            (_, Reply::Block(block)) => self.note_block(block, sides),
            _ => {}
        }
        Ok(())
    }

    /// What wraps or has a sign with a packet in that place.
    fn note_wraps(&mut self, before: &Reception, after: &Reception, place: Place) {
        let ahead = place == Place::Ahead;
        let timed = place.accepted() && place != Place::Start;
        let difference = after.transit.wrapping_sub(before.transit);
        let away = (difference as i32).unsigned_abs();
        for (class, wraps) in [
            (
                "a wrap of the sequence",
                ahead && before.cycles != after.cycles,
            ),
            ("a wrap of cycles", ahead && before.cycles > after.cycles),
            (
                "a wrap of received",
                ahead && before.received > after.received,
            ),
            (
                "a transit below 0",
                timed && after.transit > i32::MAX as u32,
            ),
            (
                "a transit difference below 0",
                timed && (difference as i32) < 0,
            ),
            ("a transit difference of -2^31", timed && away == 1 << 31),
            (
                "a wrap of jitter and 8",
                timed && before.jitter > u32::MAX - 8,
            ),
            (
                "a wrap of jitter",
                timed && before.jitter.checked_add(away).is_none(),
            ),
        ] {
            if wraps {
                count(&mut self.wraps, class);
            }
        }
    }

    fn note_block(&mut self, block: Option<Block>, sides: &Sides) {
        let held = match (block, sides.exact) {
            (None, _) => "in probation",
            (_, None) => "of any state",
            _ if sides.supposed() => "held to exact counts",
            _ => "beyond the supposition",
        };
        count(&mut self.blocks, held);
        let Some(block) = block else {
            return;
        };
        let expected = sides.words.expected_prior;
        let lost = expected.wrapping_sub(sides.words.received) as i32;
        count(&mut self.losses, loss_class(lost));
        let fraction = match block.fraction_lost {
            0 => "0",
            255 => "255",
            _ => "between",
        };
        count(&mut self.fractions, fraction);
    }

    fn print(&self, drawn: usize) {
        print_all("history", &self.histories);
        print_all("packet", &self.packets);
        print_all("with", &self.wraps);
        print_all("block", &self.blocks);
        print_all("loss", &self.losses);
        print_all("fraction", &self.fractions);
        println!("packets accepted: {}", self.accepted);
        println!("packets not accepted: {}", self.not_accepted);
        println!("{drawn} histories drawn, {} differences", self.differences);
    }
}

fn print_all(what: &str, counts: &BTreeMap<&'static str, usize>) {
    for (class, count) in counts {
        println!("{what} {class}: {count}");
    }
}

fn packet_class(place: Place, difference: u16, last: Option<Place>) -> &'static str {
    match (place, difference) {
        (Place::Probation, _) => "in probation",
        (Place::Start, _) => "that ends probation",
        (Place::Ahead, 0) => "of the highest number again",
        (Place::Ahead, 1) => "that is next",
        (Place::Ahead, 2999) => "2999 ahead",
        (Place::Ahead, _) => "after a gap",
        (Place::Behind, 65_437) => "99 behind",
        (Place::Behind, _) => "late or again",
        (Place::Jump, 3000) => "that jumps, 3000 ahead",
        (Place::Jump, 65_436) => "that jumps, 100 behind",
        (Place::Jump, _) => "that jumps",
        (Place::Restart, _) if last == Some(Place::Jump) => "that restarts",
        (Place::Restart, _) => "that restarts, others between",
    }
}

fn loss_class(lost: i32) -> &'static str {
    const ABOVE_LEAST: i32 = LOSS_LEAST + 1;
    match lost {
        LOSS_LEAST => "-8388608",
        LOSS_MOST => "8388607",
        0 => "0",
        ..LOSS_LEAST => "below -8388608",
        ABOVE_LEAST..0 => "below 0",
        1..LOSS_MOST => "above 0",
        _ => "above 8388607",
    }
}
