//! Lists of the compound writer's calls: each is lent the writer as the last
//! left it, and a buffer of any length with the datagram so far at its start.
//! Answer, datagram and, once closed, what reading it gives must be the book's.

use crate::generate::{lent, request, STALE};
use crate::library::Library;
use crate::operation::{Operation, Outcome};
use crate::rng::Rng;
use crate::side::Side;
use crate::view::{hex, View};
use library::guard::{self, Guarded};
use library::*;
use model::*;
use std::collections::BTreeMap;

const LIBRARY: Library = Library(guard::Side::End);

/// Differences after which it is enough.
const ENOUGH: usize = 20;

#[derive(Default)]
struct Counts {
    calls: usize,
    added: usize,
    read: usize,
    refused: BTreeMap<u8, usize>,
}

/// Runs that many lists, prints what they had, and says whether all were right.
pub fn run(count: usize, seed: u64) -> bool {
    let mut rng = Rng::new(seed);
    let mut counts = Counts::default();
    let mut differences = 0;
    for _ in 0..count {
        if let Err(difference) = list(&mut rng, &mut counts) {
            println!("difference: {difference}");
            differences += 1;
        }
        if differences == ENOUGH {
            break;
        }
    }
    let refused: Vec<String> = counts
        .refused
        .iter()
        .map(|(number, count)| format!("{number}: {count}"))
        .collect();
    println!(
        "{count} lists of {} calls against the book: {} packets added; refused {{{}}}; {} datagrams closed and read back; {differences} differences",
        counts.calls,
        counts.added,
        refused.join("; "),
        counts.read
    );
    differences == 0
}

fn list(rng: &mut Rng, counts: &mut Counts) -> Result<(), String> {
    let mut book = Book::default();
    let mut writer = RtcpWriter {
        length: 1,
        padded: 2,
        cname: 3,
        closed: 4,
    };
    rtcp_writer_new(&mut writer).ok_or("no rtcp_writer_new")?;
    if writer != RtcpWriter::default() {
        return Err(format!("a new writer is {writer:?}"));
    }
    let tame = rng.once_in(2);
    for _ in 0..1 + rng.below(12) {
        let given = drawn(rng, &writer, tame);
        let before = writer;
        let (call, booked) = match &given {
            None => (rtcp_writer_close(&mut writer), book.turn(&Call::Close)),
            Some(given) => add(rng, &mut book, &mut writer, given, tame)?,
        };
        let closed = booked.is_ok() && given.is_none();
        note(counts, &booked, closed);
        let call = call.ok_or("a call is missing")?;
        let wanted = wanted_call(&booked, &book, before);
        if (call, writer) != wanted {
            return Err(format!(
                "{given:?} on {before:?} gave {call:?} and {writer:?}, wanted {wanted:?}"
            ));
        }
        if closed {
            read_back(&book)?;
        }
    }
    Ok(())
}

/// An add on a buffer that starts with the datagram so far, and what the book says.
fn add(
    rng: &mut Rng,
    book: &mut Book,
    writer: &mut RtcpWriter,
    given: &Given,
    tame: bool,
) -> Result<(Option<RtcpCall>, Answer<()>), String> {
    let so_far = laid(book);
    let mut before = lent(rng, &so_far, given);
    if tame && before.len() >= so_far.len() {
        before.resize(before.len() + 1000, STALE);
    }
    let mut buf = Guarded::new(&before, guard::Side::End);
    let call = LIBRARY.add(writer, given, &mut buf);
    let booked = book.turn(&Call::Add {
        given: given.clone(),
        buffer: before.len() as u64,
    });
    if *buf != wanted_buffer(&booked, book, &before)[..] {
        return Err(format!("{given:?} left {}", hex(&buf)));
    }
    Ok((call, booked))
}

/// A call; in a tame list mostly one that is not refused and leaves room for the
/// next.
fn drawn(rng: &mut Rng, writer: &RtcpWriter, tame: bool) -> Option<Given> {
    loop {
        let given = request(rng, writer.length);
        let wild = given.as_ref().map_or(writer.cname == 0, |given| {
            size(given).is_err() || given.padding() > 0
        });
        if !tame || !wild || rng.once_in(16) {
            return given;
        }
    }
}

fn laid(book: &Book) -> Vec<u8> {
    book.packets.iter().flat_map(layout).collect()
}

/// The book's packets laid end to end, and the rest as it was.
fn wanted_buffer(booked: &Answer<()>, book: &Book, before: &[u8]) -> Vec<u8> {
    if booked.is_err() {
        return before.to_vec();
    }
    let mut wanted = laid(book);
    wanted.extend_from_slice(&before[wanted.len()..]);
    wanted
}

/// The book's answer and, where it is done, what the book says of the writer.
fn wanted_call(booked: &Answer<()>, book: &Book, before: RtcpWriter) -> (RtcpCall, RtcpWriter) {
    let last = book.packets.last();
    let after = match booked {
        Err(_) => before,
        Ok(()) => RtcpWriter {
            length: laid(book).len() as u64,
            padded: last.is_some_and(|last| !last.padding.is_empty()).into(),
            cname: book.packets.iter().any(Packet::has_cname).into(),
            closed: book.closed.into(),
        },
    };
    let refusal = booked.err().unwrap_or(Refusal::bare(0));
    let call = RtcpCall {
        number: refusal.number.into(),
        first: refusal.first,
        second: refusal.second,
    };
    (call, after)
}

fn note(counts: &mut Counts, booked: &Answer<()>, closed: bool) {
    counts.calls += 1;
    match booked {
        Ok(()) if closed => counts.read += 1,
        Ok(()) => counts.added += 1,
        Err(refusal) => *counts.refused.entry(refusal.number).or_default() += 1,
    }
}

fn read_back(book: &Book) -> Result<(), String> {
    let datagram = laid(book);
    let reading = Operation::ReadCompound(datagram.clone());
    let wanted = View::of(&reading, &Outcome::Packets(Ok(book.packets.clone())));
    match LIBRARY.view(&reading) {
        Some(view) if view.agrees(&wanted) => Ok(()),
        view => Err(format!("{} reads as {view:?}", hex(&datagram))),
    }
}
