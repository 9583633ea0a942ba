//! A sample of the Rust's answers as lines of text: see the program `sample`.

use crate::generate::{operation, Sort};
use crate::operation::Operation;
use crate::program::{self, Row};
use crate::rng::Rng;
use crate::rows::{explain, Rows};
use crate::rust::Rust;
use crate::side::{Model, Side};
use crate::view::{Value, Verdict, View};
use model::{Kind, CNAME, PRIV};
use std::collections::{BTreeMap, BTreeSet};

pub struct Line {
    pub name: String,
    pub input: String,
    pub answer: String,
}

/// Inputs drawn for each line of the sample.
const DRAWN: usize = 60;

/// The longest input: the program that replays the sample reads 262,400 bytes.
const LONGEST: usize = 64;

/// The longest row for writing.
const LONGEST_ROW: usize = 640;

pub const READING: [Sort; 7] = [
    Sort::ReadAs,
    Sort::ReadBlock,
    Sort::ReadItem,
    Sort::ReadPrefix,
    Sort::ReadChunk,
    Sort::ReadBlockAt,
    Sort::ReadSourceAt,
];

pub const WRITING: [Sort; 3] = [Sort::Write, Sort::WriteChunk, Sort::WriteItem];

/// The C function, the number of the refusal, the rows.
type Class = (&'static str, u8, Rows);

/// An input and its answer.
type Pair = (String, String);

pub fn lines(sorts: &[Sort], count: usize, seed: u64) -> Vec<Line> {
    let mut classes = classes(sorts, count, seed);
    let mut lines = Vec::new();
    while lines.len() < count && !classes.is_empty() {
        classes.retain(|(function, number, rows), waiting| {
            let turns = match *rows {
                _ if function.ends_with("step") => 9,
                _ if function.ends_with("write") && *number == 0 => 9,
                Rows::NONE => 3,
                _ => 1,
            };
            let room = count - lines.len();
            for (input, answer) in waiting.drain(..turns.min(room).min(waiting.len())) {
                let place = match function.strip_suffix("write") {
                    Some(_) => format!("write-{}", lines.len() + 1),
                    None => format!("{}", lines.len() + 1),
                };
                let name = match *rows {
                    Rows::NONE => format!("rust-{place}"),
                    rows => format!("row{rows}-{place}"),
                };
                lines.push(Line {
                    name,
                    input,
                    answer,
                });
            }
            !waiting.is_empty()
        });
    }
    lines
}

fn classes(sorts: &[Sort], count: usize, seed: u64) -> BTreeMap<Class, Vec<Pair>> {
    let mut classes: BTreeMap<Class, Vec<Pair>> = BTreeMap::new();
    let mut seen = BTreeSet::new();
    let mut rng = Rng::new(seed);
    for _ in 0..count * DRAWN {
        let sort = rng.pick(sorts);
        let operation = operation(&mut rng, sort);
        for (class, pair) in asked(&operation) {
            if seen.insert(pair.0.clone()) {
                classes.entry(class).or_default().push(pair);
            }
        }
    }
    classes
}

/// What an operation asks of the C functions: itself, and the steps of a walk.
fn asked(operation: &Operation) -> Vec<(Class, Pair)> {
    if let Some(row) = program::input(operation) {
        return asked_to_write(operation, row.to_string())
            .into_iter()
            .collect();
    }
    let Some((function, index, bytes)) = function(operation) else {
        return Vec::new();
    };
    let Some(rust) = Rust.view(operation).filter(|_| bytes.len() <= LONGEST) else {
        return Vec::new();
    };
    let model = Model.view(operation).expect("the model");
    let rows = seen_in_c(
        operation,
        explain(operation, &rust).expect("rows explain it"),
    );
    let view = match rows {
        Rows::NONE => filled(rust, &model),
        _ => model,
    };
    let index: Vec<u64> = index.into_iter().collect();
    let number = match view.verdict {
        Verdict::Refused(refusal) => refusal.number,
        _ => 0,
    };
    let pair = (
        input(function, &index, bytes),
        answer(operation, bytes, &view),
    );
    let mut asked = vec![((function, number, rows), pair)];
    if rows == Rows::NONE && number == 0 {
        match operation {
            Operation::ReadAs(Kind::Sdes, _) => asked.extend(chunk_steps(bytes, &view)),
            Operation::ReadChunk(_) => asked.extend(item_steps(bytes, &view)),
            _ => {}
        }
    }
    asked
}

/// No field of a C result is the length that row 8 is about, but a step's; and the
/// result of a whole packet has no loss.
fn seen_in_c(operation: &Operation, rows: Rows) -> Rows {
    let rows = match operation {
        Operation::ReadAs(..) => rows.without(10),
        _ => rows,
    };
    if rows == Rows::of(&[8]) {
        return Rows::NONE;
    }
    rows
}

fn asked_to_write(operation: &Operation, row: String) -> Option<(Class, Pair)> {
    let rust = Rust.view(operation).filter(|_| row.len() <= LONGEST_ROW)?;
    let model = Model.view(operation).expect("the model");
    let rows = explain(operation, &rust).expect("rows explain it");
    let view = match rows {
        Rows::NONE => filled(rust, &model),
        _ => model,
    };
    let number = match view.verdict {
        Verdict::Refused(refusal) => refusal.number,
        _ => 0,
    };
    let function = write_function(operation);
    let answer = program::answer_of(operation, &view);
    Some(((function, number, rows), (row, answer)))
}

fn write_function(operation: &Operation) -> &'static str {
    match operation {
        Operation::Write(given, _) => match given.kind() {
            Kind::Sr => "sr_write",
            Kind::Rr => "rr_write",
            Kind::Sdes => "sdes_write",
            Kind::Bye => "bye_write",
            Kind::App => "app_write",
        },
        Operation::WriteChunk(..) => "chunk_write",
        _ => "item_write",
    }
}

/// The C function without `rtcp_`, its index and its bytes.
fn function(operation: &Operation) -> Option<(&'static str, Option<u64>, &[u8])> {
    Some(match operation {
        Operation::ReadAs(Kind::Sr, bytes) => ("sr_parse", None, bytes),
        Operation::ReadAs(Kind::Rr, bytes) => ("rr_parse", None, bytes),
        Operation::ReadAs(Kind::Sdes, bytes) => ("sdes_parse", None, bytes),
        Operation::ReadAs(Kind::Bye, bytes) => ("bye_parse", None, bytes),
        Operation::ReadAs(Kind::App, bytes) => ("app_parse", None, bytes),
        Operation::ReadBlock(bytes) => ("block_parse", None, bytes),
        Operation::ReadItem(bytes) => ("item_parse", None, bytes),
        Operation::ReadPrefix(bytes) => ("item_priv_prefix", None, bytes),
        Operation::ReadChunk(bytes) => ("chunk_parse", None, bytes),
        Operation::ReadBlockAt(Kind::Sr, bytes, i) => ("sr_report_block", Some(*i), bytes),
        Operation::ReadBlockAt(_, bytes, i) => ("rr_report_block", Some(*i), bytes),
        Operation::ReadSourceAt(bytes, i) => ("bye_source", Some(*i), bytes),
        _ => return None,
    })
}

fn input(function: &str, numbers: &[u64], bytes: &[u8]) -> String {
    Row::new(function, numbers, bytes).to_string()
}

/// What the Rust shows, with the model's values where it shows none.
fn filled(rust: View, model: &View) -> View {
    let mut view = rust;
    for ((_, value), (_, other)) in view.fields.iter_mut().zip(&model.fields) {
        if *value == Value::Unseen {
            *value = other.clone();
        }
    }
    view
}

/// The fields of a C function's result, each part as its place and its length: the
/// bytes there are the part.
struct Fields<'a> {
    input: &'a [u8],
    numbers: Vec<i128>,
}

impl<'a> Fields<'a> {
    /// Of what is not refused.
    fn of(input: &'a [u8]) -> Self {
        Fields {
            input,
            numbers: vec![0; 3],
        }
    }

    fn number(mut self, number: impl Into<i128>) -> Self {
        self.numbers.push(number.into());
        self
    }

    fn part(self, offset: u64, bytes: &[u8]) -> Self {
        let at = offset as usize;
        assert_eq!(&self.input[at..at + bytes.len()], bytes);
        self.number(offset).number(bytes.len() as u64)
    }

    fn item(self, at: u64, item: &SeenItem) -> Self {
        let prefix = at + 2 + u64::from(item.item_type == u64::from(PRIV));
        self.number(item.item_type)
            .number(item.length)
            .part(prefix, &item.prefix)
            .part(prefix + item.prefix.len() as u64, &item.value)
    }

    fn shown(&self) -> String {
        program::shown(&self.numbers)
    }
}

/// How many fields a result has after its refusal.
fn fields(operation: &Operation) -> usize {
    match operation {
        Operation::ReadAs(Kind::Sr, _) => 10,
        Operation::ReadAs(Kind::App | Kind::Bye, _) => 8,
        Operation::ReadAs(Kind::Rr, _) | Operation::ReadItem(_) => 6,
        Operation::ReadAs(Kind::Sdes, _) => 4,
        Operation::ReadPrefix(_) => 2,
        Operation::ReadChunk(_) => 3,
        Operation::ReadSourceAt(..) => 1,
        _ => 7,
    }
}

fn answer(operation: &Operation, input: &[u8], view: &View) -> String {
    if let Verdict::Refused(refusal) = view.verdict {
        let head = [refusal.number.into(), refusal.first, refusal.second];
        return program::shown(&[&head[..], &vec![0; fields(operation)]].concat());
    }
    let seen = Seen(view);
    let n = |name| seen.number(name);
    let fields = match operation {
        Operation::ReadAs(kind @ (Kind::Sr | Kind::Rr), _) => {
            let mut fields = Fields::of(input).number(n("ssrc"));
            if *kind == Kind::Sr {
                fields = fields
                    .number(n("ntp_time"))
                    .number(n("rtp_time"))
                    .number(n("packet_count"))
                    .number(n("octet_count"));
            }
            let extension = kind.least() as u64 + 24 * n("blocks");
            let fields = fields.number(n("blocks"));
            seen.padding(fields.part(extension, seen.bytes("extension")))
        }
        Operation::ReadAs(Kind::App, _) => seen.padding(
            Fields::of(input)
                .number(n("low"))
                .number(n("ssrc"))
                .part(8, seen.bytes("name"))
                .part(12, seen.bytes("data")),
        ),
        Operation::ReadAs(Kind::Bye, _) => {
            let has_reason = u64::from(seen.value("reason") != &Value::Nothing);
            let reason = seen.bytes("reason");
            let start = 4 + 4 * n("sources") + has_reason;
            seen.padding(
                Fields::of(input)
                    .number(n("sources"))
                    .number(has_reason)
                    .part(start, reason)
                    .part(start + reason.len() as u64, seen.bytes("tail")),
            )
        }
        Operation::ReadAs(Kind::Sdes, _) => {
            let has_cname = seen.chunks().iter().any(|chunk| chunk.cname() != 0);
            seen.padding(Fields::of(input).number(n("chunks")).number(has_cname))
        }
        Operation::ReadItem(_) => Fields::of(input).item(0, &seen.chunks()[0].items[0]),
        Operation::ReadPrefix(_) => Fields::of(input).part(3, seen.bytes("prefix")),
        Operation::ReadChunk(_) => Fields::of(input)
            .number(n("chunk_ssrc"))
            .number(n("used"))
            .number(seen.chunks()[0].cname()),
        Operation::ReadSourceAt(..) => Fields::of(input).number(n("source")),
        _ => Fields::of(input)
            .number(n("block_ssrc"))
            .number(n("fraction_lost"))
            .number(signed(seen.value("cumulative_lost")))
            .number(n("extended_sequence"))
            .number(n("jitter"))
            .number(n("last_sr"))
            .number(n("delay")),
    };
    fields.shown()
}

/// The steps of a walk over an SDES packet, and the one after the last.
fn chunk_steps(bytes: &[u8], view: &View) -> Vec<(Class, Pair)> {
    let seen = Seen(view);
    let (mut at, end) = (4, seen.body());
    let mut steps = Vec::new();
    for chunk in seen.chunks() {
        let length = (chunk.items_end() / 4 + 1) * 4;
        let answer = Fields::of(bytes)
            .number(chunk.ssrc)
            .number(length)
            .number(chunk.cname())
            .number(at + length)
            .number(end);
        let class = ("chunk_walk_step", 0, Rows::of(&[8]));
        steps.push((
            class,
            (input("chunk_walk_step", &[at, end], bytes), answer.shown()),
        ));
        at += length;
    }
    let class = ("chunk_walk_step", 25, Rows::NONE);
    let answer = program::shown(&[25, 0, 0, 0, 0, 0, at, end]);
    steps.push((class, (input("chunk_walk_step", &[at, end], bytes), answer)));
    steps
}

/// The steps of a walk over a chunk's items, and the one after the last.
fn item_steps(bytes: &[u8], view: &View) -> Vec<(Class, Pair)> {
    let mut at = 4;
    let mut steps = Vec::new();
    for item in &Seen(view).chunks()[0].items {
        let next = at + 2 + item.length;
        let answer = Fields::of(bytes).item(at, item).number(next);
        let class = ("item_walk_step", 0, Rows::NONE);
        steps.push((
            class,
            (input("item_walk_step", &[at], bytes), answer.shown()),
        ));
        at = next;
    }
    let class = ("item_walk_step", 25, Rows::NONE);
    let answer = program::shown(&[25, 0, 0, 0, 0, 0, 0, 0, 0, at]);
    steps.push((class, (input("item_walk_step", &[at], bytes), answer)));
    steps
}

#[derive(Default)]
struct SeenChunk {
    ssrc: u64,
    items: Vec<SeenItem>,
}

#[derive(Default)]
struct SeenItem {
    item_type: u64,
    length: u64,
    prefix: Vec<u8>,
    value: Vec<u8>,
}

impl SeenChunk {
    fn items_end(&self) -> u64 {
        end_of(&self.items)
    }

    /// Where the first CNAME is, or 0.
    fn cname(&self) -> u64 {
        let is_cname = |item: &SeenItem| item.item_type == u64::from(CNAME);
        let first = self.items.iter().position(is_cname);
        first.map_or(0, |at| end_of(&self.items[..at]))
    }
}

/// The end of items that follow an SSRC.
fn end_of(items: &[SeenItem]) -> u64 {
    4 + items.iter().map(|item| 2 + item.length).sum::<u64>()
}

/// A view by the names of its values.
struct Seen<'a>(&'a View);

impl<'a> Seen<'a> {
    fn value(&self, wanted: &str) -> &'a Value {
        let field = self.0.fields.iter().find(|(name, _)| *name == wanted);
        &field.expect("a field of that name").1
    }

    fn number(&self, name: &str) -> u64 {
        number(self.value(name))
    }

    fn bytes(&self, name: &str) -> &'a [u8] {
        bytes(self.value(name))
    }

    fn body(&self) -> u64 {
        self.number("length") - self.bytes("padding_bytes").len() as u64
    }

    fn padding<'b>(&self, fields: Fields<'b>) -> Fields<'b> {
        fields.part(self.body(), self.bytes("padding_bytes"))
    }

    /// The chunks; a lone item is in a chunk without SSRC.
    fn chunks(&self) -> Vec<SeenChunk> {
        let mut chunks: Vec<SeenChunk> = Vec::new();
        for (name, value) in &self.0.fields {
            if *name == "chunk_ssrc" || *name == "item_type" && chunks.is_empty() {
                chunks.push(SeenChunk::default());
            }
            let Some(chunk) = chunks.last_mut() else {
                continue;
            };
            if *name == "item_type" {
                chunk.items.push(SeenItem::default());
            }
            match (*name, chunk.items.last_mut()) {
                ("chunk_ssrc", _) => chunk.ssrc = number(value),
                ("item_type", Some(item)) => item.item_type = number(value),
                ("item_length", Some(item)) => item.length = number(value),
                ("prefix", Some(item)) => item.prefix = bytes(value).to_vec(),
                ("value", Some(item)) => item.value = bytes(value).to_vec(),
                _ => {}
            }
        }
        chunks
    }
}

fn signed(value: &Value) -> i128 {
    match value {
        Value::Number(number) => *number,
        other => panic!("a number, not {other}"),
    }
}

fn number(value: &Value) -> u64 {
    signed(value).try_into().expect("a number of 64 bits")
}

fn bytes(value: &Value) -> &[u8] {
    match value {
        Value::Bytes(bytes) => bytes,
        Value::Nothing => &[],
        other => panic!("bytes, not {other}"),
    }
}
