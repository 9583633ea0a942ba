//! An operation and its outcome as an equation between the project's antt
//! definitions (crates/rfc3550/specs), to be checked by computation.

use crate::operation::{Operation, Outcome};
use model::*;

const HEAD: &str = "\
use Prim.Native.Nat.{ℕ}
use mathlib.Core.Path.{_≡_, refl}
use mathlib.Core.Bool.{Bool, true, false}
use mathlib.Core.List.{List, [], _∷_}
use lib.IntN.{pos, negsuc}
use Rattle·rfc3550·specs.specs.Answer.{ok, refuse, need, _>>_, _>>=_, mapOk}
use Rattle·rfc3550·specs.specs.Bytes.{be, val, put, get, sum, store}
use Rattle·rfc3550·specs.specs.Loss.{lossBits, lossOf, lossIn, lossOver, lossShown}
use Rattle·rfc3550·specs.specs.Packet.{item, priv, receiver, sender, no-reason, reason, report, sdes, bye, app, unknown, layout, blocksBytes, itemsBytes, chunkBytes, chunksBytes, contentBytes}
use Rattle·rfc3550·specs.specs.Read.{SR, RR, SDES, BYE, APP, kindOf, versionIn, padded, lowIn, typeIn, stated, paddingCount, paddingFits, checkHeader, readBlocks, readReport, itemOf, readItem, readFill, readItems, readChunk, readChunks, readLeaving, readContent, readAs, readBlock, readBlockAt, readSourceAt, readPrefix}
use Rattle·rfc3550·specs.specs.Compound.{readPacket, readPackets, readCompound}
use Rattle·rfc3550·specs.specs.Walk.{openWalk, step, openSdes, sdesStep, openItems, itemStep}
use Rattle·rfc3550·specs.specs.Write.{giveReport, giveSdes, giveBye, giveApp, lentBlocks, lentItems, lentChunks, itemsGiven, chunksGiven, lossTests, itemTests, itemsTests, ownTests, tests, calculateSize, itemSize, chunkSize, room, write, writeItem, writeChunk}
use Rattle·rfc3550·specs.specs.Writer.{add, close, addTests, closeTests, call}
use Rattle·rfc3550·specs.specs.Book.{firstFault, turn}
";

const UNFOLDING: &str = "need _>>=_ mapOk _>>_ firstFault turn be val put get sum store readPacket readPackets readCompound lossBits lossOf lossIn lossOver lossShown blocksBytes itemsBytes chunkBytes chunksBytes contentBytes layout kindOf versionIn padded lowIn typeIn stated paddingCount paddingFits checkHeader readBlocks readReport itemOf readItem readFill readItems readChunk readChunks readLeaving readContent readAs readBlock readBlockAt readSourceAt readPrefix openWalk step openSdes sdesStep openItems itemStep lentBlocks lentItems lentChunks itemsGiven chunksGiven lossTests itemTests itemsTests ownTests tests calculateSize itemSize chunkSize room write writeItem writeChunk addTests closeTests call";

/// Equations in one declaration.
const ROWS: usize = 40;

/// A module of equations, as a file of a crate's proofs. There is none of a call that
/// fills a list, of a lookup, nor of reception figures.
pub fn module(operations: impl Iterator<Item = Operation>) -> String {
    let equations: Vec<String> = operations
        .filter_map(|operation| equation(&operation, &operation.modelled()))
        .collect();
    let mut module = HEAD.to_string();
    for (number, rows) in equations.chunks(ROWS).enumerate() {
        let types: Vec<String> = rows.iter().map(|row| format!("({row})")).collect();
        let proofs = vec!["refl"; rows.len()];
        module += &format!(
            "\npub rows{number} :\n    {}\nunfolding {UNFOLDING}\nrows{number} = ({})\n",
            types.join("\n    × "),
            proofs.join(", ")
        );
    }
    module
}

/// The equation `operation ≡ outcome`.
fn equation(operation: &Operation, outcome: &Outcome) -> Option<String> {
    Some(format!(
        "{} ≡ {}",
        left(operation)?,
        right(operation, outcome)?
    ))
}

fn list<T>(items: impl IntoIterator<Item = T>, show: impl Fn(T) -> String) -> String {
    let mut text = String::from("(");
    for item in items {
        text += &show(item);
        text += " ∷ ";
    }
    text + "[])"
}

fn numbers<T: ToString>(numbers: &[T]) -> String {
    list(numbers, T::to_string)
}

/// An integer: `pos n` is n, and `negsuc n` is -(n + 1).
fn loss(loss: i32) -> String {
    match loss {
        0.. => format!("(pos {loss})"),
        _ => format!("(negsuc {})", -(loss + 1)),
    }
}

fn answer<T>(answer: &Answer<T>, show: impl Fn(&T) -> String) -> String {
    match answer {
        Ok(value) => format!("ok {}", show(value)),
        Err(refusal) => format!(
            "refuse {} {} {}",
            refusal.number, refusal.first, refusal.second
        ),
    }
}

fn kind(kind: Kind) -> &'static str {
    match kind {
        Kind::Sr => "SR",
        Kind::Rr => "RR",
        Kind::Sdes => "SDES",
        Kind::Bye => "BYE",
        Kind::App => "APP",
    }
}

fn block(block: &Block) -> String {
    format!(
        "record {{ ssrc = {}; fraction = {}; lost = {}; sequence = {}; jitter = {}; lsr = {}; dlsr = {} }}",
        block.ssrc,
        block.fraction_lost,
        loss(block.cumulative_lost),
        block.extended_sequence,
        block.jitter,
        block.last_sr,
        block.delay
    )
}

fn reporter(ssrc: u32, sender: &Option<SenderInfo>) -> String {
    match sender {
        None => format!("(receiver {ssrc})"),
        Some(info) => format!(
            "(sender {ssrc} {} {} {} {})",
            info.ntp_time, info.rtp_time, info.packet_count, info.octet_count
        ),
    }
}

fn item(item: &Item) -> String {
    if item.item_type == PRIV {
        format!("priv {} {}", numbers(&item.prefix), numbers(&item.value))
    } else {
        format!("item {} {}", item.item_type, numbers(&item.value))
    }
}

fn chunk(chunk: &Chunk) -> String {
    format!(
        "record {{ ssrc = {}; items = {} }}",
        chunk.ssrc,
        list(&chunk.items, item)
    )
}

fn content(content: &Content) -> String {
    match content {
        Content::Report {
            ssrc,
            sender,
            blocks,
            extension,
        } => format!(
            "report {} {} {}",
            reporter(*ssrc, sender),
            list(blocks, block),
            numbers(extension)
        ),
        Content::Sdes { chunks } => format!("sdes {}", list(chunks, chunk)),
        Content::Bye {
            sources,
            reason,
            tail,
        } => {
            let leaving = match reason {
                None => "no-reason".to_string(),
                Some(reason) => format!("(reason {} {})", numbers(reason), numbers(tail)),
            };
            format!("bye {} {leaving}", numbers(sources))
        }
        Content::App {
            subtype,
            ssrc,
            name,
            data,
        } => format!("app {subtype} {ssrc} {} {}", numbers(name), numbers(data)),
        Content::Unknown {
            packet_type,
            low,
            body,
        } => format!("unknown {packet_type} {low} {}", numbers(body)),
    }
}

fn packet(packet: &Packet) -> String {
    format!(
        "record {{ content = {}; padding = {} }}",
        content(&packet.content),
        numbers(&packet.padding)
    )
}

fn sdes_walk(walk: &SdesWalk) -> String {
    format!("record {{ at = {}; end = {} }}", walk.position, walk.end)
}

fn given(given: &Given) -> String {
    match given {
        Given::Report {
            ssrc,
            sender,
            blocks,
            padding,
        } => format!(
            "(giveReport {} (record {{ fractions = {}; losses = {}; words = {} }}) {padding})",
            reporter(*ssrc, sender),
            numbers(&blocks.fractions),
            list(&blocks.losses, |lost| loss(*lost)),
            numbers(&blocks.words)
        ),
        Given::Sdes { lists, padding } => format!(
            "(giveSdes (record {{ ssrcs = {}; counts = {}; types = {}; prefixes = {}; values = {}; bytes = {} }}) {padding})",
            numbers(&lists.ssrcs),
            numbers(&lists.counts),
            numbers(&lists.items.types),
            numbers(&lists.items.prefix_lengths),
            numbers(&lists.items.value_lengths),
            numbers(&lists.items.bytes)
        ),
        Given::Bye {
            sources,
            reason,
            padding,
        } => format!("(giveBye {} {} {padding})", numbers(sources), numbers(reason)),
        Given::App {
            subtype,
            ssrc,
            name,
            data,
            padding,
        } => format!(
            "(giveApp {subtype} {ssrc} {} {} {padding})",
            numbers(name),
            numbers(data)
        ),
    }
}

fn writer(writer: &Writer) -> String {
    format!(
        "record {{ len = {}; padded = {}; cname = {}; closed = {} }}",
        writer.length, writer.padded, writer.cname, writer.closed
    )
}

fn book(book: &Book) -> String {
    format!(
        "record {{ packets = {}; closed = {} }}",
        list(&book.packets, packet),
        book.closed
    )
}

fn left(operation: &Operation) -> Option<String> {
    Some(match operation {
        Operation::ReadAs(k, bytes) => format!("readAs {} {}", kind(*k), numbers(bytes)),
        Operation::ReadBlock(bytes) => format!("readBlock {}", numbers(bytes)),
        Operation::ReadItem(bytes) => format!("readItem {}", numbers(bytes)),
        Operation::ReadPrefix(bytes) => format!("readPrefix {}", numbers(bytes)),
        Operation::ReadChunk(bytes) => format!("readChunk {}", numbers(bytes)),
        Operation::ReadBlockAt(k, bytes, index) => {
            format!("readBlockAt {} {} {index}", kind(*k), numbers(bytes))
        }
        Operation::ReadSourceAt(bytes, index) => {
            format!("readSourceAt {} {index}", numbers(bytes))
        }
        Operation::ReadCompound(bytes) => format!("readCompound {}", numbers(bytes)),
        Operation::Open(bytes) => format!("openWalk {}", numbers(bytes)),
        Operation::Step(bytes, position) => format!("step {} {position}", numbers(bytes)),
        Operation::OpenSdes(bytes) => format!("openSdes {}", numbers(bytes)),
        Operation::SdesStep(bytes, walk) => {
            format!("sdesStep {} ({})", numbers(bytes), sdes_walk(walk))
        }
        Operation::OpenItems(bytes) => format!("openItems {}", numbers(bytes)),
        Operation::ItemStep(bytes, position) => {
            format!("itemStep {} {position}", numbers(bytes))
        }
        Operation::List(..)
        | Operation::LookUp(..)
        | Operation::NewReception(_)
        | Operation::Receive(..)
        | Operation::History(..) => return None,
        Operation::Write(g, buffer) => format!("write {} {}", given(g), numbers(buffer)),
        Operation::WriteChunk(lists, buffer) => format!(
            "writeChunk {} {} {} {} {} {}",
            lists.ssrc,
            numbers(&lists.items.types),
            numbers(&lists.items.prefix_lengths),
            numbers(&lists.items.value_lengths),
            numbers(&lists.items.bytes),
            numbers(buffer)
        ),
        Operation::WriteItem(item, buffer) => format!(
            "writeItem (record {{ type = {}; prefix = {}; value = {} }}) {}",
            item.item_type,
            numbers(&item.prefix),
            numbers(&item.value),
            numbers(buffer)
        ),
        Operation::Add(w, g, buffer) => format!(
            "call (add {}) ({}) {}",
            given(g),
            writer(w),
            numbers(buffer)
        ),
        Operation::Close(w) => format!("call close ({}) []", writer(w)),
        Operation::Turn(b, call) => match call {
            Call::Add { given: g, buffer } => {
                format!("turn (add {}) {buffer} ({})", given(g), book(b))
            }
            Call::Close => format!("turn close 0 ({})", book(b)),
        },
    })
}

fn right(operation: &Operation, outcome: &Outcome) -> Option<String> {
    let unit = |_: &()| "tt".to_string();
    Some(match outcome {
        Outcome::Packet(a) => answer(a, |p| format!("({})", packet(p))),
        Outcome::Block(a) => answer(a, |b| format!("({})", block(b))),
        Outcome::Item(a) => answer(a, |(i, used)| {
            format!(
                "({}, {})",
                item(i),
                numbers(&lone_bytes(operation)[*used..])
            )
        }),
        Outcome::Prefix(a) => answer(a, |prefix| numbers(prefix)),
        Outcome::Chunk(a) => answer(a, |(c, used)| {
            format!(
                "({}, {})",
                chunk(c),
                numbers(&lone_bytes(operation)[*used..])
            )
        }),
        Outcome::Source(a) => answer(a, u32::to_string),
        Outcome::Packets(a) => answer(a, |packets| list(packets, packet)),
        Outcome::Opened(a) => answer(a, u64::to_string),
        Outcome::Step(a) => answer(a, |(p, next)| format!("({}, {next})", packet(p))),
        Outcome::OpenedSdes(a) => answer(a, |walk| format!("({})", sdes_walk(walk))),
        Outcome::SdesStep(a) => answer(a, |(c, walk)| {
            format!("({}, {})", chunk(c), sdes_walk(walk))
        }),
        Outcome::ItemStep(a) => answer(a, |(i, next)| format!("({}, {next})", item(i))),
        Outcome::Listed(a, lists) => {
            let lists = list(lists, |list| numbers(list));
            format!("({}, {lists})", answer(a, u64::to_string))
        }
        Outcome::LookedUp(a, buffer) | Outcome::Written(a, buffer) => {
            format!("({}, {})", answer(a, u64::to_string), numbers(buffer))
        }
        Outcome::Added(a, w, buffer) => {
            format!("({}, {}, {})", answer(a, unit), writer(w), numbers(buffer))
        }
        Outcome::Closed(a, w) => format!("({}, {}, [])", answer(a, unit), writer(w)),
        Outcome::Turned(a, b) => format!("({}, {})", answer(a, unit), book(b)),
        Outcome::Received(..) => return None,
    })
}

/// The definitions give the bytes after a lone part, not their number.
fn lone_bytes(operation: &Operation) -> &[u8] {
    match operation {
        Operation::ReadItem(bytes) | Operation::ReadChunk(bytes) => bytes,
        _ => &[],
    }
}
