//! Random inputs: good ones, damaged ones, limits and empty cases.

mod lookups;
mod packets;
mod readings;
mod receptions;
mod writings;

use crate::operation::{Operation, Outcome};
use crate::rng::Rng;
use lookups::look_up;
pub use lookups::sources;
use model::*;
use packets::*;
pub use packets::{packet, LOSSES};
use readings::*;
use receptions::receive;
pub use receptions::{history, Beginning};
use writings::*;
pub use writings::{sdes_lists, LOSSES_OUTSIDE};

/// The byte that buffers and lists are filled with before a call.
pub const STALE: u8 = 0x5A;

/// Lists of stale numbers, each as wide as the listing's.
pub fn stale_lists(listing: Listing, lengths: &[usize]) -> Vec<Vec<i128>> {
    let word = u32::from_be_bytes([STALE; 4]).into();
    let numbers: &[i128] = match listing {
        Listing::Blocks(_) => &[STALE.into(), word, word],
        Listing::Items => &[word],
        Listing::Packets => &[u64::from_be_bytes([STALE; 8]).into()],
    };
    let lists = numbers.iter().zip(lengths);
    lists.map(|(number, len)| vec![*number; *len]).collect()
}

/// The lengths that the lists must have; some, where the reading is refused.
pub fn lengths(listing: Listing, bytes: &[u8]) -> Vec<usize> {
    match (listing.numbers(bytes), listing) {
        (Ok(lists), _) => lists.iter().map(Vec::len).collect(),
        (Err(_), Listing::Blocks(_)) => vec![8; 3],
        _ => vec![8],
    }
}

/// Nothing, around the size wanted, or more.
fn length_around(rng: &mut Rng, wanted: usize) -> usize {
    match rng.below(8) {
        0 => 0,
        1 => wanted.saturating_sub(1),
        2 => rng.below(wanted + 1),
        3 | 4 => wanted,
        _ => wanted + 1 + rng.below(9),
    }
}

fn buffer(rng: &mut Rng, wanted: usize) -> Vec<u8> {
    vec![STALE; length_around(rng, wanted)]
}

/// The room that a write wants; some, where it is refused anyway.
fn room(size: Answer<u64>) -> usize {
    size.map_or(8, |size| size as usize)
}

/// Lists of any length, often around the right one or around the one from which
/// on items are not counted first.
fn list(rng: &mut Rng) -> Operation {
    let listing = rng.pick(&Listing::ALL);
    let bytes = match listing {
        Listing::Blocks(kind) => packet_bytes(rng, Some(kind)),
        Listing::Items => packet_bytes(rng, Some(Kind::Sdes)),
        Listing::Packets => datagram(rng),
    };
    let wanted = if listing == Listing::Items && rng.once_in(4) {
        vec![bytes.len() / 2 * 5]
    } else {
        lengths(listing, &bytes)
    };
    let lent = wanted.iter().map(|wanted| length_around(rng, *wanted));
    let before = stale_lists(listing, &lent.collect::<Vec<_>>());
    Operation::List(listing, bytes, before)
}

fn writer(rng: &mut Rng) -> Writer {
    Writer {
        length: match rng.below(8) {
            0 | 1 => 0,
            2 => u64::MAX - rng.below(20) as u64,
            3 => rng.below(20) as u64,
            _ => 4 * (1 + rng.below(6)) as u64,
        },
        closed: rng.once_in(8),
        padded: rng.once_in(6),
        cname: rng.once_in(2),
    }
}

fn book(rng: &mut Rng) -> Book {
    let count = rng.below(4);
    Book {
        packets: many(rng, count, |rng| {
            let kind = any_kind(rng);
            let mut packet = packet(rng, kind);
            if !rng.once_in(3) {
                packet.padding.clear();
            }
            packet
        }),
        closed: rng.once_in(8),
    }
}

fn add(rng: &mut Rng) -> Operation {
    let writer = writer(rng);
    let kind = kind(rng);
    let given = given(rng, kind);
    let wanted = if writer.length < 1000 {
        writer.length as usize + room(size(&given))
    } else {
        100
    };
    let mut buffer = buffer(rng, wanted);
    if rng.once_in(6) {
        buffer.truncate(writer.length.saturating_sub(1) as usize);
    }
    Operation::Add(writer, given, buffer)
}

fn turn(rng: &mut Rng) -> Operation {
    let book = book(rng);
    let kind = kind(rng);
    let given = given(rng, kind);
    let so_far: usize = book.packets.iter().map(|packet| layout(packet).len()).sum();
    let total = so_far + room(size(&given));
    let buffer = match rng.below(6) {
        0 => rng.below(so_far + 1),
        1 => so_far,
        2 => total - 1,
        3 => total,
        _ => total + rng.below(9),
    } as u64;
    let call = if rng.once_in(4) {
        Call::Close
    } else {
        Call::Add { given, buffer }
    };
    Operation::Turn(book, call)
}

/// A call of a writer with that length so far: what an add is given, or nothing
/// for a close.
pub fn request(rng: &mut Rng, so_far: u64) -> Option<Given> {
    if rng.once_in(4) {
        return None;
    }
    let kind = if so_far == 0 && !rng.once_in(3) {
        rng.pick(&[Kind::Sr, Kind::Rr])
    } else {
        kind(rng)
    };
    if kind.is_report() && rng.once_in(12) {
        return Some(disturbed_report(rng));
    }
    Some(given(rng, kind))
}

/// A buffer for an add: of any length, with the datagram so far at its start.
pub fn lent(rng: &mut Rng, so_far: &[u8], given: &Given) -> Vec<u8> {
    let mut buffer = match rng.below(8) {
        0 => buffer(rng, so_far.len()),
        _ => buffer(rng, so_far.len() + room(size(given))),
    };
    let kept = so_far.len().min(buffer.len());
    buffer[..kept].copy_from_slice(&so_far[..kept]);
    buffer
}

/// A list of writer calls from a fresh writer: each gets the writer and the
/// buffer that the last one left. Once closed, the datagram is read.
pub fn calls(rng: &mut Rng) -> Vec<Operation> {
    let mut operations = Vec::new();
    let mut writer = Writer::default();
    let length = rng.pick(&[0, 8, 60, 200, 600, 600, 2000]);
    let mut buffer = vec![STALE; length];
    for _ in 0..1 + rng.below(7) {
        let operation = match request(rng, writer.length) {
            None => Operation::Close(writer),
            Some(given) => Operation::Add(writer, given, buffer.clone()),
        };
        match operation.modelled() {
            Outcome::Added(_, after, left) => (writer, buffer) = (after, left),
            Outcome::Closed(_, after) => writer = after,
            _ => {}
        }
        operations.push(operation);
    }
    if writer.closed {
        buffer.truncate(writer.length as usize);
        operations.push(Operation::ReadCompound(buffer));
    }
    operations
}

/// The sorts of operations.
#[derive(Clone, Copy, Debug, PartialEq, Eq)]
pub enum Sort {
    ReadAs,
    ReadBlock,
    ReadItem,
    ReadPrefix,
    ReadChunk,
    ReadBlockAt,
    ReadSourceAt,
    Write,
    WriteChunk,
    WriteItem,
    /// A report whose lists of blocks disagree.
    WriteDisturbed,
    ReadCompound,
    Open,
    Step,
    OpenSdes,
    SdesStep,
    OpenItems,
    ItemStep,
    List,
    LookUp,
    Call,
    Turn,
    /// Reception figures of a source.
    Receive,
}

impl Sort {
    pub const ALL: [Sort; 23] = [
        Sort::ReadAs,
        Sort::ReadBlock,
        Sort::ReadItem,
        Sort::ReadPrefix,
        Sort::ReadChunk,
        Sort::ReadBlockAt,
        Sort::ReadSourceAt,
        Sort::Write,
        Sort::WriteChunk,
        Sort::WriteItem,
        Sort::WriteDisturbed,
        Sort::ReadCompound,
        Sort::Open,
        Sort::Step,
        Sort::OpenSdes,
        Sort::SdesStep,
        Sort::OpenItems,
        Sort::ItemStep,
        Sort::List,
        Sort::LookUp,
        Sort::Call,
        Sort::Turn,
        Sort::Receive,
    ];

    /// A sort that more than the model has. Whole packets are read and written
    /// more often than parts.
    pub fn any(rng: &mut Rng) -> Sort {
        match rng.below(4) {
            0 => Sort::ReadAs,
            1 => Sort::Write,
            _ => loop {
                let sort = rng.pick(&Sort::ALL);
                if sort != Sort::Turn {
                    return sort;
                }
            },
        }
    }
}

/// An operation of that sort on random input.
pub fn operation(rng: &mut Rng, sort: Sort) -> Operation {
    match sort {
        Sort::ReadAs => {
            let kind = kind(rng);
            Operation::ReadAs(kind, packet_bytes(rng, Some(kind)))
        }
        Sort::ReadBlock => Operation::ReadBlock(lone_block(rng)),
        Sort::ReadItem => Operation::ReadItem(lone_item(rng)),
        Sort::ReadPrefix => Operation::ReadPrefix(lone_item(rng)),
        Sort::ReadChunk => Operation::ReadChunk(lone_chunk(rng)),
        Sort::ReadBlockAt => {
            let kind = rng.pick(&[Kind::Sr, Kind::Rr]);
            let bytes = packet_bytes(rng, Some(kind));
            let index = index(rng, low(&bytes));
            Operation::ReadBlockAt(kind, bytes, index)
        }
        Sort::ReadSourceAt => {
            let bytes = packet_bytes(rng, Some(Kind::Bye));
            let index = index(rng, low(&bytes));
            Operation::ReadSourceAt(bytes, index)
        }
        Sort::Write => {
            let kind = kind(rng);
            let given = given(rng, kind);
            let buffer = buffer(rng, room(size(&given)));
            Operation::Write(given, buffer)
        }
        Sort::WriteChunk => {
            let lists = given_chunk_lists(rng);
            let buffer = buffer(rng, room(size_of_chunk(&lists)));
            Operation::WriteChunk(lists, buffer)
        }
        Sort::WriteItem => {
            let item = given_item(rng);
            let buffer = buffer(rng, room(size_of_item(&item)));
            Operation::WriteItem(item, buffer)
        }
        Sort::WriteDisturbed => {
            let given = disturbed_report(rng);
            let buffer = buffer(rng, room(size(&given)));
            if rng.once_in(2) {
                return Operation::Add(writer(rng), given, buffer);
            }
            Operation::Write(given, buffer)
        }
        Sort::ReadCompound => Operation::ReadCompound(datagram(rng)),
        Sort::Open => Operation::Open(datagram(rng)),
        Sort::Step => {
            let bytes = datagram(rng);
            let position = step_position(rng, &bytes);
            Operation::Step(bytes, position)
        }
        Sort::OpenSdes => Operation::OpenSdes(packet_bytes(rng, Some(Kind::Sdes))),
        Sort::SdesStep => {
            let bytes = packet_bytes(rng, Some(Kind::Sdes));
            let walk = sdes_walk(rng, &bytes);
            Operation::SdesStep(bytes, walk)
        }
        Sort::OpenItems => Operation::OpenItems(lone_chunk(rng)),
        Sort::ItemStep => {
            let bytes = lone_chunk(rng);
            let position = if rng.once_in(2) {
                4
            } else {
                position(rng, &bytes)
            };
            Operation::ItemStep(bytes, position)
        }
        Sort::List => list(rng),
        Sort::LookUp => look_up(rng),
        Sort::Call => {
            if rng.once_in(5) {
                Operation::Close(writer(rng))
            } else {
                add(rng)
            }
        }
        Sort::Turn => turn(rng),
        Sort::Receive => receive(rng),
    }
}
