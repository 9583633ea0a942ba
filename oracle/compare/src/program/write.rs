//! Rows that write a lone packet, chunk or item, and calls of the compound writer.
//!
//! The first number is the length of the buffer. A list is named by the place where
//! it ends, among the row's numbers or among its bytes.
//!
//! ```text
//! rr_write    LEN PADDING SSRC LOSSES WORDS, then these; the bytes are the fractions
//! sr_write    LEN PADDING SSRC NTP RTP PACKETS OCTETS LOSSES WORDS, then these
//! bye_write   LEN PADDING END, then the sources; the bytes are the reason
//! app_write   LEN PADDING SUBTYPE SSRC NAME; the bytes are the name and the data
//! sdes_write  LEN PADDING SSRCS COUNTS PREFIXES VALUES TYPES, then these, the types in bytes
//! chunk_write LEN SSRC PREFIXES VALUES TYPES, then these
//! item_write  LEN TYPE PREFIX; the bytes are the prefix and the value
//! writer_set  LEN LENGTH PADDED CNAME CLOSED
//! ```
//!
//! `writer_add_rr` and the like have what `rr_write` has, and so have `rr_records` and
//! `writer_add_rr_records`, whose blocks are lent as records.

use super::read::refused;
use super::{expected, run, shown, Program, Row};
use crate::generate::STALE;
use crate::operation::Operation;
use crate::view::{Value, Verdict, View};
use model::*;

/// Whether a row writes a lone packet, chunk or item.
pub fn is_write(function: &str) -> bool {
    function.ends_with("_write")
}

/// The row but for the buffer's length, and the buffer; nothing where the operation
/// is no write.
pub(super) fn input(operation: &Operation) -> Option<(Row, &[u8])> {
    Some(match operation {
        Operation::Write(given, buffer) => (given_row(given), buffer),
        Operation::WriteChunk(lists, buffer) => {
            let mut row = Row::new("chunk_write", &[0, lists.ssrc.into(), 0, 0, 0], &[]);
            put_list(&mut row, 2, &lists.items.prefix_lengths);
            put_list(&mut row, 3, &lists.items.value_lengths);
            put_bytes(&mut row, 4, &lists.items.types, &lists.items.bytes);
            (row, buffer)
        }
        Operation::WriteItem(item, buffer) => {
            let mut row = Row::new("item_write", &[0, item.item_type.into(), 0], &[]);
            put_bytes(&mut row, 2, &item.prefix, &item.value);
            (row, buffer)
        }
        _ => return None,
    })
}

fn given_row(given: &Given) -> Row {
    let padding = given.padding();
    let new = |function, arguments: &[u64], places: usize| {
        let numbers = [&[0, padding], arguments, &vec![0; places]].concat();
        Row::new(function, &numbers, &[])
    };
    match given {
        Given::Report {
            ssrc,
            sender,
            blocks,
            ..
        } => {
            let ssrc = (*ssrc).into();
            let mut row = match sender {
                None => new("rr_write", &[ssrc], 2),
                Some(s) => {
                    let words = [s.rtp_time, s.packet_count, s.octet_count].map(u64::from);
                    new("sr_write", &[&[ssrc, s.ntp_time], &words[..]].concat(), 2)
                }
            };
            let place = row.numbers.len() - 2;
            put_list(&mut row, place, &blocks.losses);
            put_list(&mut row, place + 1, &blocks.words);
            row.bytes = blocks.fractions.clone();
            row
        }
        Given::Sdes { lists, .. } => {
            let mut row = new("sdes_write", &[], 5);
            put_list(&mut row, 2, &lists.ssrcs);
            put_list(&mut row, 3, &lists.counts);
            put_list(&mut row, 4, &lists.items.prefix_lengths);
            put_list(&mut row, 5, &lists.items.value_lengths);
            put_bytes(&mut row, 6, &lists.items.types, &lists.items.bytes);
            row
        }
        Given::Bye {
            sources, reason, ..
        } => {
            let mut row = new("bye_write", &[], 1);
            put_list(&mut row, 2, sources);
            row.bytes = reason.clone();
            row
        }
        Given::App {
            subtype,
            ssrc,
            name,
            data,
            ..
        } => {
            let mut row = new("app_write", &[*subtype, (*ssrc).into()], 1);
            put_bytes(&mut row, 4, name, data);
            row
        }
    }
}

/// Puts a list after a row's numbers, and its end at a place.
pub(super) fn put_list<T: Copy + Into<i128>>(row: &mut Row, place: usize, list: &[T]) {
    row.numbers.extend(list.iter().map(|n| (*n).into()));
    row.numbers[place] = row.numbers.len() as i128;
}

fn put_bytes(row: &mut Row, place: usize, first: &[u8], second: &[u8]) {
    row.numbers[place] = first.len() as i128;
    row.bytes = [first, second].concat();
}

/// The operation of a row.
pub(super) fn operation(row: &Row) -> Operation {
    let buffer = vec![STALE; row.number(0)];
    match row.function.as_str() {
        "chunk_write" => {
            let lists = ChunkLists {
                ssrc: row.number(1),
                items: items(row, 5, 2, 4),
            };
            Operation::WriteChunk(lists, buffer)
        }
        "item_write" => {
            let (prefix, value) = row.split(2);
            let item = Item {
                item_type: row.number(1),
                prefix,
                value,
            };
            Operation::WriteItem(item, buffer)
        }
        function => {
            let kind = function.strip_suffix("_write").expect("a write");
            Operation::Write(given(kind, row), buffer)
        }
    }
}

/// What a row gives of a kind.
fn given(kind: &str, row: &Row) -> Given {
    let padding = row.number(1);
    match kind {
        "rr" => Given::Report {
            ssrc: row.number(2),
            sender: None,
            blocks: blocks(row, 5, 3),
            padding,
        },
        "sr" => Given::Report {
            ssrc: row.number(2),
            sender: Some(SenderInfo {
                ntp_time: row.number(3),
                rtp_time: row.number(4),
                packet_count: row.number(5),
                octet_count: row.number(6),
            }),
            blocks: blocks(row, 9, 7),
            padding,
        },
        "sdes" => Given::Sdes {
            lists: SdesLists {
                ssrcs: row.list(7, row.number(2)),
                counts: row.list(row.number(2), row.number(3)),
                items: items(row, row.number(3), 4, 6),
            },
            padding,
        },
        "bye" => Given::Bye {
            sources: row.list(3, row.number(2)),
            reason: row.bytes.clone(),
            padding,
        },
        "app" => {
            let (name, data) = row.split(4);
            Given::App {
                subtype: row.number(2),
                ssrc: row.number(3),
                name,
                data,
                padding,
            }
        }
        kind => panic!("no such kind: {kind}"),
    }
}

/// Prefix lengths from a place on, value lengths after them, types and bytes.
fn items(row: &Row, from: usize, ends: usize, types: usize) -> ItemLists {
    let (prefixes, values) = (row.number(ends), row.number(ends + 1));
    let (types, bytes) = row.split(types);
    ItemLists {
        types,
        prefix_lengths: row.list(from, prefixes),
        value_lengths: row.list(prefixes, values),
        bytes,
    }
}

/// Losses from a place on, words after them; the bytes are the fractions.
fn blocks(row: &Row, from: usize, ends: usize) -> BlockLists {
    let (losses, words) = (row.number(ends), row.number(ends + 1));
    BlockLists {
        fractions: row.bytes.clone(),
        losses: row.list(from, losses),
        words: row.list(losses, words),
    }
}

/// What a view of a write shows, as the program writes it.
pub(super) fn answer_of(view: &View) -> String {
    let value = |wanted: &str| {
        let field = view.fields.iter().find(|(name, _)| *name == wanted);
        &field.expect("a field of that name").1
    };
    let done = |name| match value(name) {
        Value::Number(number) => shown(&[0, 0, 0, *number]),
        other => panic!("a number, not {other}"),
    };
    let not_done = |refusal| shown(&[&refused(refusal)[..], &[0]].concat());
    let size = match value("size") {
        Value::Refused(refusal) => not_done(refusal),
        _ => done("size"),
    };
    let write = match &view.verdict {
        Verdict::Accepted => done("written"),
        Verdict::Refused(refusal) => not_done(refusal),
        Verdict::Panicked => panic!("an answer"),
    };
    let Value::Bytes(buffer) = value("buffer") else {
        panic!("a buffer");
    };
    format!("{size}{write} {}", run(buffer))
}

impl Program {
    /// A call of the compound writer: its answer, the writer and the buffer after it.
    pub(super) fn call(&mut self, row: &Row) -> String {
        let room = row.number(0);
        match row.function.as_str() {
            "writer_set" => {
                self.writer.copy_from_slice(&row.list(1, 5));
                self.shown(&[], room)
            }
            "writer_new" => {
                self.space[..room].fill(STALE);
                self.writer = [0; 4];
                self.shown(&[], room)
            }
            _ => {
                let answer = self.turn(row, room);
                let head = answer.err().map_or([0; 3], |refusal| refused(&refusal));
                self.shown(&head, room)
            }
        }
    }

    /// As lists of the same blocks; a call leaves the writer as it is.
    pub(super) fn records(&mut self, row: &Row, function: &str) -> String {
        let mut lists = row.clone();
        if !function.starts_with("writer_") {
            lists.function = format!("{function}_write");
            self.space[..row.number(0)].fill(STALE);
            return expected(&lists);
        }
        lists.function = function.to_string();
        let writer = self.writer;
        let answer = self.call(&lists);
        self.writer = writer;
        answer
    }

    fn shown(&self, answer: &[u64], room: usize) -> String {
        let numbers = [answer, &self.writer].concat();
        format!("{} {}", shown(&numbers), run(&self.space[..room]))
    }

    /// On a refusal the writer stays as it is.
    fn turn(&mut self, row: &Row, room: usize) -> Answer<()> {
        let [length, padded, cname, closed] = self.writer;
        let mut writer = Writer {
            length,
            padded: padded != 0,
            cname: cname != 0,
            closed: closed != 0,
        };
        match row.function.strip_prefix("writer_add_") {
            None => writer.close()?,
            Some(kind) => {
                writer.add(&given(kind, row), &mut self.space[..room])?;
            }
        }
        let flags = [writer.padded, writer.cname, writer.closed].map(u64::from);
        self.writer = [writer.length, flags[0], flags[1], flags[2]];
        Ok(())
    }
}
