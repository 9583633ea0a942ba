//! Writes random packets, lone chunks and lone items through the C functions, and
//! reads them back through the C functions.
//!
//!     readback [COUNT] [SEED]
//!
//! Every field, block, source, chunk and item read must be what was given, with a
//! short APP name zero-filled, an empty reason read as none, a prefix kept on PRIV
//! only, and the zeros after a reason and of the padding as docs/PROTOCOL.md has them.
//! The bytes after what was written must be as they were. The blocks of a report are
//! read with it, each alone, and as lists. A report with a loss outside the range must
//! be refused for the first such loss, with every byte as it was. The exit status is 1
//! where something differs.
//!
//! Of COUNT that are written, it prints how many there are of each kind, and how many
//! blocks were read back with each class of loss; those with a loss outside the range
//! come on top.

use compare::generate::{operation, stale_lists, Sort, STALE};
use compare::library::{about_library, watched, Library};
use compare::operation::{Operation, Outcome};
use compare::rng::Rng;
use compare::side::Side;
use compare::text::inputs;
use compare::view::{Value, Verdict, View};
use library::guard;
use model::*;
use std::collections::BTreeMap;
use std::ops::RangeInclusive;
use std::process::ExitCode;

/// The classes of losses. What is in the first and the last is refused.
const CLASSES: [RangeInclusive<i32>; 8] = [
    i32::MIN..=LOSS_LEAST - 1,
    LOSS_LEAST..=LOSS_LEAST,
    LOSS_LEAST + 1..=-2,
    -1..=-1,
    0..=0,
    1..=LOSS_MOST - 1,
    LOSS_MOST..=LOSS_MOST,
    LOSS_MOST + 1..=i32::MAX,
];

/// Differences printed in full.
const SHOWN: usize = 20;

/// Bytes of the buffer after what is written: few, or enough for any packet of
/// such lists, as most buffers have.
const AFTER: [usize; 2] = [5, 1500];

fn main() -> ExitCode {
    let (count, seed) = compare::count_and_seed(&mut std::env::args().skip(1), 100_000);
    println!("{}", about_library());
    if !library::present() {
        return ExitCode::SUCCESS;
    }
    let mut rng = Rng::new(seed);
    let mut counts = Counts::default();
    while counts.written < count {
        let operation = &*watched(drawn(&mut rng));
        let outcome = match outside(operation) {
            Some(loss) => {
                counts.note_losses(&[loss]);
                refused(operation, loss)
            }
            None => {
                counts.note_written(operation);
                read_back(operation)
            }
        };
        if let Err(difference) = outcome {
            counts.differences += 1;
            if counts.differences <= SHOWN {
                println!("difference: {}\n{difference}", inputs(operation));
            }
        }
    }
    counts.print();
    ExitCode::from(u8::from(counts.differences > 0))
}

#[derive(Default)]
struct Counts {
    written: usize,
    sorts: BTreeMap<&'static str, usize>,
    losses: [usize; CLASSES.len()],
    differences: usize,
}

impl Counts {
    fn note_written(&mut self, operation: &Operation) {
        self.written += 1;
        for name in sorts(operation) {
            *self.sorts.entry(name).or_default() += 1;
        }
        if let Some(blocks) = blocks(operation) {
            self.note_losses(&blocks.losses);
        }
    }

    fn note_losses(&mut self, losses: &[i32]) {
        for loss in losses {
            let class = CLASSES.iter().position(|class| class.contains(loss));
            self.losses[class.expect("every loss has a class")] += 1;
        }
    }

    fn print(&self) {
        for (name, count) in &self.sorts {
            println!("{name}: {count}");
        }
        let [below, inside @ .., above] = &self.losses;
        println!("loss below {LOSS_LEAST}, refused: {below}");
        for (class, count) in CLASSES[1..].iter().zip(inside) {
            match (class.start(), class.end()) {
                (only, to) if only == to => println!("loss {only}: {count}"),
                (from, to) => println!("loss from {from} to {to}: {count}"),
            }
        }
        println!("loss above {LOSS_MOST}, refused: {above}");
        let blocks: usize = inside.iter().sum();
        println!("{blocks} blocks written and read back");
        println!(
            "{} written and read back, {} differ",
            self.written, self.differences
        );
    }
}

/// The blocks of a report that is written.
fn blocks(operation: &Operation) -> Option<&BlockLists> {
    match operation {
        Operation::Write(Given::Report { blocks, .. }, _) => Some(blocks),
        _ => None,
    }
}

/// The first loss of a report that is outside the range.
fn outside(operation: &Operation) -> Option<i32> {
    let mut losses = blocks(operation)?.losses.iter().copied();
    losses.find(|loss| !(LOSS_LEAST..=LOSS_MOST).contains(loss))
}

/// The write is refused for that loss, and leaves the buffer as it was.
fn refused(written: &Operation, loss: i32) -> Result<(), String> {
    let Operation::Write(_, buffer) = written else {
        return Err("a loss in a report only".to_string());
    };
    let refusal = Refusal::loss_too_large(loss);
    let wanted = View::of(written, &Outcome::Written(Err(refusal), buffer.clone()));
    let view = Library(guard::Side::End).view(written);
    let view = view.ok_or("the library cannot write it")?;
    if view != wanted {
        return Err(format!("written: {view}\nwanted: {wanted}"));
    }
    Ok(())
}

/// A write that is not refused, into a buffer with room to spare, or a report with a
/// loss outside the range, into a buffer that may be too short: 17 comes before 10.
fn drawn(rng: &mut Rng) -> Operation {
    // Five of seven for the five kinds of packets.
    let sort = match rng.below(7) {
        0 => Sort::WriteChunk,
        1 => Sort::WriteItem,
        _ => Sort::Write,
    };
    let after = rng.pick(&AFTER);
    loop {
        let buffer = |size: u64| vec![STALE; size as usize + after];
        match operation(rng, sort) {
            Operation::Write(given, _) => match size(&given) {
                Ok(size) => return Operation::Write(given, buffer(size)),
                Err(Refusal { number: 17, .. }) => return Operation::Write(given, buffer(0)),
                Err(_) => {}
            },
            Operation::WriteChunk(lists, _) => {
                if let Ok(size) = size_of_chunk(&lists) {
                    return Operation::WriteChunk(lists, buffer(size));
                }
            }
            Operation::WriteItem(item, _) => {
                if let Ok(size) = size_of_item(&item) {
                    return Operation::WriteItem(item, buffer(size));
                }
            }
            _ => {}
        }
    }
}

/// The operation's name, and what is special about it.
fn sorts(operation: &Operation) -> Vec<&'static str> {
    let mut sorts = vec![operation.name()];
    let items: Vec<Item> = match operation {
        Operation::Write(given, _) => {
            if given.padding() > 0 {
                sorts.push("with padding");
            }
            match given {
                Given::Bye { reason, .. } if reason.is_empty() => sorts.push("with no reason"),
                Given::App { name, .. } if name.len() < 4 => sorts.push("with a short name"),
                _ => {}
            }
            match given {
                Given::Sdes { lists, .. } => lists.items.split().unwrap_or_default(),
                _ => Vec::new(),
            }
        }
        Operation::WriteChunk(lists, _) => lists.items.split().unwrap_or_default(),
        Operation::WriteItem(item, _) => vec![item.clone()],
        _ => Vec::new(),
    };
    if items.iter().any(|item| item.prefix != kept(item).prefix) {
        sorts.push("with a prefix that is left out");
    }
    if items.iter().any(|item| item.item_type == PRIV) {
        sorts.push("with PRIV");
    }
    sorts
}

/// A prefix is kept on PRIV only.
fn kept(item: &Item) -> Item {
    let mut item = item.clone();
    if item.item_type != PRIV {
        item.prefix.clear();
    }
    item
}

/// The blocks of a report, each alone and all as lists, with what they must give:
/// what was given, and stale numbers after it.
fn block_readings(kind: Kind, bytes: &[u8], given: &BlockLists) -> Vec<(Operation, Outcome)> {
    let blocks = given.split().expect("the lists agree");
    let alone = bytes[kind.least()..].chunks(24).zip(&blocks);
    let mut readings: Vec<(Operation, Outcome)> = alone
        .map(|(bytes, block)| {
            let reading = Operation::ReadBlock(bytes.to_vec());
            (reading, Outcome::Block(Ok(*block)))
        })
        .collect();
    let lists = [
        wide(&given.fractions),
        wide(&given.losses),
        wide(&given.words),
    ];
    let lengths = lists.each_ref().map(|list| list.len() + 2);
    let before = stale_lists(Listing::Blocks(kind), &lengths);
    let mut after = before.clone();
    for (list, given) in after.iter_mut().zip(&lists) {
        list[..given.len()].copy_from_slice(given);
    }
    readings.push((
        Operation::List(Listing::Blocks(kind), bytes.to_vec(), before),
        Outcome::Listed(Ok(blocks.len() as u64), after),
    ));
    readings
}

fn wide<T: Copy + Into<i128>>(numbers: &[T]) -> Vec<i128> {
    numbers.iter().map(|number| (*number).into()).collect()
}

/// The readings of what was written, and what they must give.
fn readings(written: &Operation, bytes: Vec<u8>) -> Vec<(Operation, Outcome)> {
    let mut readings = match written {
        Operation::Write(given @ Given::Report { blocks, .. }, _) => {
            block_readings(given.kind(), &bytes, blocks)
        }
        _ => Vec::new(),
    };
    readings.push(reading(written, bytes));
    readings
}

/// The reading of all that was written, and what it must give.
fn reading(written: &Operation, bytes: Vec<u8>) -> (Operation, Outcome) {
    let used = bytes.len();
    match written {
        Operation::Write(given, _) => (
            Operation::ReadAs(given.kind(), bytes),
            Outcome::Packet(Ok(written_packet(given))),
        ),
        Operation::WriteChunk(lists, _) => {
            let items = lists.items.split().expect("the lists agree");
            let chunk = Chunk {
                ssrc: lists.ssrc,
                items: items.iter().map(kept).collect(),
            };
            (
                Operation::ReadChunk(bytes),
                Outcome::Chunk(Ok((chunk, used))),
            )
        }
        Operation::WriteItem(item, _) => (
            Operation::ReadItem(bytes),
            Outcome::Item(Ok((kept(item), used))),
        ),
        _ => unreachable!("a write"),
    }
}

/// How long the buffer is.
fn lent(written: &Operation) -> usize {
    match written {
        Operation::Write(_, buffer)
        | Operation::WriteChunk(_, buffer)
        | Operation::WriteItem(_, buffer) => buffer.len(),
        _ => unreachable!("a write"),
    }
}

fn read_back(written: &Operation) -> Result<(), String> {
    let side = Library(guard::Side::End);
    let view = side.view(written).ok_or("the library cannot write it")?;
    let [(_, Value::Number(size)), (_, told), (_, Value::Bytes(buffer))] = &view.fields[..] else {
        return Err(format!("written: {view}"));
    };
    let size = *size as usize;
    if view.verdict != Verdict::Accepted || *told != Value::Number(size as i128) {
        return Err(format!("written: {view}"));
    }
    if buffer.len() != lent(written) || buffer[size..].iter().any(|byte| *byte != STALE) {
        return Err(format!("bytes after it: {view}"));
    }
    for (reading, wanted) in readings(written, buffer[..size].to_vec()) {
        let wanted = View::of(&reading, &wanted);
        let read = side.view(&reading).ok_or("the library cannot read it")?;
        if read != wanted {
            return Err(format!("read: {read}\nwanted: {wanted}"));
        }
    }
    Ok(())
}
