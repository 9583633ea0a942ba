//! Every operation with its input, and what it gives.

use model::*;
use std::slice::from_ref;

#[derive(Clone, Debug, PartialEq, Eq, Hash)]
pub enum Operation {
    ReadAs(Kind, Vec<u8>),
    ReadBlock(Vec<u8>),
    ReadItem(Vec<u8>),
    ReadPrefix(Vec<u8>),
    ReadChunk(Vec<u8>),
    ReadBlockAt(Kind, Vec<u8>, u64),
    ReadSourceAt(Vec<u8>, u64),
    ReadCompound(Vec<u8>),
    Open(Vec<u8>),
    Step(Vec<u8>, u64),
    OpenSdes(Vec<u8>),
    SdesStep(Vec<u8>, SdesWalk),
    OpenItems(Vec<u8>),
    ItemStep(Vec<u8>, u64),
    /// The last part is the lists before it: three of blocks, else one.
    List(Listing, Vec<u8>, Vec<Vec<i128>>),
    /// An SDES packet, the SSRCs that are looked up in it, and the answers before it.
    LookUp(Vec<u8>, Vec<u32>, Vec<u8>),
    /// The last part of a write is the buffer before it.
    Write(Given, Vec<u8>),
    WriteChunk(ChunkLists, Vec<u8>),
    WriteItem(Item, Vec<u8>),
    Add(Writer, Given, Vec<u8>),
    Close(Writer),
    Turn(Book, Call),
    NewReception(u16),
    Receive(Reception, Event),
    /// The number that a reception is set up with, and what comes to it.
    History(u16, Vec<Event>),
}

/// What an operation gives. A write also leaves a buffer, a filling a list, a lookup
/// its answers, a call also a writer or a book, an event also a reception.
#[derive(Clone, Debug, PartialEq, Eq, Hash)]
pub enum Outcome {
    Packet(Answer<Packet>),
    Block(Answer<Block>),
    Item(Answer<(Item, usize)>),
    Prefix(Answer<Vec<u8>>),
    Chunk(Answer<(Chunk, usize)>),
    Source(Answer<u32>),
    Packets(Answer<Vec<Packet>>),
    Opened(Answer<u64>),
    Step(Answer<(Packet, u64)>),
    OpenedSdes(Answer<SdesWalk>),
    SdesStep(Answer<(Chunk, SdesWalk)>),
    ItemStep(Answer<(Item, u64)>),
    Listed(Answer<u64>, Vec<Vec<i128>>),
    /// The number is the most chunks that can be visited.
    LookedUp(Answer<u64>, Vec<u8>),
    Written(Answer<u64>, Vec<u8>),
    Added(Answer<()>, Writer, Vec<u8>),
    Closed(Answer<()>, Writer),
    Turned(Answer<()>, Book),
    /// The replies to the events, and the state at their end.
    Received(Vec<Reply>, Reception),
}

impl Operation {
    pub fn name(&self) -> &'static str {
        match self {
            Operation::ReadAs(Kind::Sr, _) => "read SR",
            Operation::ReadAs(Kind::Rr, _) => "read RR",
            Operation::ReadAs(Kind::Sdes, _) => "read SDES",
            Operation::ReadAs(Kind::Bye, _) => "read BYE",
            Operation::ReadAs(Kind::App, _) => "read APP",
            Operation::ReadBlock(_) => "read block",
            Operation::ReadItem(_) => "read item",
            Operation::ReadPrefix(_) => "read prefix",
            Operation::ReadChunk(_) => "read chunk",
            Operation::ReadBlockAt(..) => "read block at",
            Operation::ReadSourceAt(..) => "read source at",
            Operation::ReadCompound(_) => "read compound",
            Operation::Open(_) => "open",
            Operation::Step(..) => "step",
            Operation::OpenSdes(_) => "open SDES",
            Operation::SdesStep(..) => "SDES step",
            Operation::OpenItems(_) => "open items",
            Operation::ItemStep(..) => "item step",
            Operation::List(Listing::Blocks(Kind::Sr), ..) => "list SR blocks",
            Operation::List(Listing::Blocks(_), ..) => "list RR blocks",
            Operation::List(Listing::Items, ..) => "list items",
            Operation::List(Listing::Packets, ..) => "list packets",
            Operation::LookUp(..) => "look up",
            Operation::Write(given, _) => match given.kind() {
                Kind::Sr => "write SR",
                Kind::Rr => "write RR",
                Kind::Sdes => "write SDES",
                Kind::Bye => "write BYE",
                Kind::App => "write APP",
            },
            Operation::WriteChunk(..) => "write chunk",
            Operation::WriteItem(..) => "write item",
            Operation::Add(..) => "add",
            Operation::Close(_) => "close",
            Operation::Turn(..) => "turn",
            Operation::NewReception(_) => "new reception",
            Operation::Receive(_, Event::Packet { .. }) => "reception update",
            Operation::Receive(_, Event::Block { .. }) => "reception block",
            Operation::History(..) => "reception history",
        }
    }

    /// The bytes that a reading, a call that fills lists, or a lookup is lent.
    pub fn bytes_read(&self) -> Option<&[u8]> {
        match self {
            Operation::ReadAs(_, bytes)
            | Operation::ReadBlock(bytes)
            | Operation::ReadItem(bytes)
            | Operation::ReadPrefix(bytes)
            | Operation::ReadChunk(bytes)
            | Operation::ReadBlockAt(_, bytes, _)
            | Operation::ReadSourceAt(bytes, _)
            | Operation::ReadCompound(bytes)
            | Operation::Open(bytes)
            | Operation::Step(bytes, _)
            | Operation::OpenSdes(bytes)
            | Operation::SdesStep(bytes, _)
            | Operation::OpenItems(bytes)
            | Operation::ItemStep(bytes, _)
            | Operation::List(_, bytes, _)
            | Operation::LookUp(bytes, ..) => Some(bytes),
            _ => None,
        }
    }

    /// What the model gives.
    pub fn modelled(&self) -> Outcome {
        match self {
            Operation::ReadAs(kind, bytes) => Outcome::Packet(read_as(*kind, bytes)),
            Operation::ReadBlock(bytes) => Outcome::Block(read_block(bytes)),
            Operation::ReadItem(bytes) => Outcome::Item(read_item(bytes)),
            Operation::ReadPrefix(bytes) => Outcome::Prefix(read_prefix(bytes)),
            Operation::ReadChunk(bytes) => Outcome::Chunk(read_chunk(bytes)),
            Operation::ReadBlockAt(kind, bytes, index) => {
                Outcome::Block(read_block_at(*kind, bytes, *index))
            }
            Operation::ReadSourceAt(bytes, index) => Outcome::Source(read_source_at(bytes, *index)),
            Operation::ReadCompound(bytes) => Outcome::Packets(read_compound(bytes)),
            Operation::Open(bytes) => Outcome::Opened(open(bytes)),
            Operation::Step(bytes, position) => Outcome::Step(step(bytes, *position)),
            Operation::OpenSdes(bytes) => Outcome::OpenedSdes(open_sdes(bytes)),
            Operation::SdesStep(bytes, walk) => Outcome::SdesStep(sdes_step(bytes, *walk)),
            Operation::OpenItems(bytes) => Outcome::Opened(open_items(bytes)),
            Operation::ItemStep(bytes, position) => Outcome::ItemStep(item_step(bytes, *position)),
            Operation::List(listing, bytes, before) => {
                let mut lists = before.clone();
                Outcome::Listed(listing.fill(bytes, &mut lists), lists)
            }
            Operation::LookUp(bytes, ssrcs, before) => {
                let mut answers = before.clone();
                Outcome::LookedUp(look_up(bytes, ssrcs, &mut answers), answers)
            }
            Operation::Write(given, before) => written(before, |buffer| write(given, buffer)),
            Operation::WriteChunk(lists, before) => {
                written(before, |buffer| write_chunk(lists, buffer))
            }
            Operation::WriteItem(item, before) => {
                written(before, |buffer| write_item(item, buffer))
            }
            Operation::Add(writer, given, before) => {
                let (mut writer, mut buffer) = (*writer, before.clone());
                let answer = writer.add(given, &mut buffer).map(|_| ());
                Outcome::Added(answer, writer, buffer)
            }
            Operation::Close(writer) => {
                let mut writer = *writer;
                Outcome::Closed(writer.close(), writer)
            }
            Operation::Turn(book, call) => {
                let mut book = book.clone();
                Outcome::Turned(book.turn(call), book)
            }
            Operation::NewReception(seq) => received(Reception::new(*seq), &[]),
            Operation::Receive(before, event) => received(*before, from_ref(event)),
            Operation::History(first, events) => received(Reception::new(*first), events),
        }
    }
}

/// What comes to a reception, in order.
fn received(mut state: Reception, events: &[Event]) -> Outcome {
    let replies = events.iter().map(|event| state.take(*event)).collect();
    Outcome::Received(replies, state)
}

/// A write into a copy of the buffer.
pub fn written(before: &[u8], write: impl FnOnce(&mut [u8]) -> Answer<u64>) -> Outcome {
    let mut buffer = before.to_vec();
    let answer = write(&mut buffer);
    Outcome::Written(answer, buffer)
}
