//! Every line of docs/DIFFERENCES.md, run: its input is answered as it says on
//! both sides and falls under its condition; and where no condition of the table
//! holds, the answers are equal.
#![cfg(rtcp_types)]

use compare::generate::{operation, Sort, STALE};
use compare::limits;
use compare::operation::Operation;
use compare::rng::Rng;
use compare::rows::{explain, Rows};
use compare::rust::Rust;
use compare::side::{Model, Side};
use compare::text::{from_hex, inputs};
use compare::view::{Value, Verdict, View};
use model::*;

struct Line {
    rows: Vec<u8>,
    condition: String,
    input: String,
    here: String,
    rust: String,
}

/// The lines of the table. "the same" stands for the condition above it.
fn table() -> Vec<Line> {
    let path = concat!(env!("CARGO_MANIFEST_DIR"), "/../../docs/DIFFERENCES.md");
    let text = std::fs::read_to_string(path).expect("docs/DIFFERENCES.md");
    let mut lines: Vec<Line> = Vec::new();
    for line in text.lines().filter(|line| line.starts_with('|')).skip(2) {
        let cells: Vec<&str> = line.trim_matches('|').split('|').map(str::trim).collect();
        let [rows, _, condition, input, here, rust] = cells[..] else {
            panic!("six cells: {line}");
        };
        let condition = match lines.last() {
            Some(above) if condition == "the same" => above.condition.clone(),
            _ => condition.to_string(),
        };
        lines.push(Line {
            rows: rows
                .split(", ")
                .map(|row| row.parse().expect("a row"))
                .collect(),
            condition,
            input: input.to_string(),
            here: here.to_string(),
            rust: rust.to_string(),
        });
    }
    lines
}

#[test]
fn every_line_is_as_it_says() {
    let lines = table();
    for row in 1..=10 {
        assert!(lines.iter().any(|line| line.rows.contains(&row)), "{row}");
    }
    for line in lines {
        let operation = input(&line.input);
        shows(
            &Model.view(&operation).expect("the model"),
            &line.here,
            &line,
        );
        let Some(rust) = Rust.view(&operation) else {
            assert_eq!(line.rust, "not expressible", "{}", line.input);
            continue;
        };
        shows(&rust, &line.rust, &line);
        let rows = explain(&operation, &rust).expect("a row").numbers();
        let named = rows.filter(|row| line.rows.contains(row)).count();
        assert_eq!(named, line.rows.len(), "{}", line.input);
        assert!(condition(&line.condition)(&operation), "{}", line.input);
    }
}

/// Checks a view against `N(a, b)`, or a word and fields in backquotes.
fn shows(view: &View, answer: &str, line: &Line) {
    let mut parts = answer.split('`');
    let verdict = parts.next().unwrap_or_default().trim_end_matches(", ");
    match view.verdict {
        Verdict::Accepted => assert!(["accepted", "written"].contains(&verdict), "{}", line.input),
        Verdict::Refused(refusal) => assert_eq!(refusal, refused(verdict), "{}", line.input),
        Verdict::Panicked => panic!("{}", line.input),
    }
    for field in parts.step_by(2) {
        let there = view
            .fields
            .iter()
            .any(|(name, value)| format!("{name}={value}") == field);
        assert!(there, "{field} in {view}");
    }
}

fn refused(text: &str) -> Refusal {
    let numbers: Vec<u64> = text
        .split(|c: char| !c.is_ascii_digit())
        .filter(|number| !number.is_empty())
        .map(|number| number.parse().expect("a number"))
        .collect();
    let detail = |at: usize| numbers.get(at).copied().unwrap_or(0);
    Refusal::new(detail(0) as u8, detail(1), detail(2))
}

fn input(text: &str) -> Operation {
    let Some((what, bytes)) = text.trim_end_matches('`').split_once(" `") else {
        return write(text);
    };
    let bytes = from_hex(bytes);
    match what {
        "lone block" => Operation::ReadBlock(bytes),
        "lone item" => Operation::ReadItem(bytes),
        "lone chunk" => Operation::ReadChunk(bytes),
        "SR" => Operation::ReadAs(Kind::Sr, bytes),
        "RR" => Operation::ReadAs(Kind::Rr, bytes),
        "SDES" => Operation::ReadAs(Kind::Sdes, bytes),
        "BYE" => Operation::ReadAs(Kind::Bye, bytes),
        "APP" => Operation::ReadAs(Kind::App, bytes),
        _ => panic!("{text}"),
    }
}

fn write(text: &str) -> Operation {
    match text {
        "BYE without source, reason \"a\", padding 4, over 12 bytes 5A" => {
            let bye = Given::Bye {
                sources: Vec::new(),
                reason: b"a".to_vec(),
                padding: 4,
            };
            Operation::Write(bye, vec![STALE; 12])
        }
        "APP with 262,136 bytes of data, buffer of 262,148 bytes" => write_app(262_136, 262_148),
        "APP with 262,136 bytes of data, empty buffer" => write_app(262_136, 0),
        "lone chunk with 1,019 values of 255 bytes and one of 251, buffer of 262,144 bytes" => {
            let mut items = vec![item(2, &[b'v'; 255]); 1019];
            items.push(item(2, &[b'v'; 251]));
            let lists = ChunkLists {
                ssrc: 1,
                items: ItemLists::of(&items),
            };
            Operation::WriteChunk(lists, vec![STALE; 262_144])
        }
        "lone item of type 0 without value, over 2 bytes 5A" => {
            Operation::WriteItem(item(0, &[]), vec![STALE; 2])
        }
        "lone item of type 1, value FF, over 3 bytes 5A" => {
            Operation::WriteItem(item(1, &[0xFF]), vec![STALE; 3])
        }
        "RR with a block, loss 8,388,608, over 32 bytes 5A" => write_loss(8_388_608),
        "RR with a block, loss 16,777,216, over 32 bytes 5A" => write_loss(16_777_216),
        "RR with a block, loss −8,388,609, over 32 bytes 5A" => write_loss(-8_388_609),
        _ => panic!("{text}"),
    }
}

fn write_loss(cumulative_lost: i32) -> Operation {
    let block = Block {
        cumulative_lost,
        ..Block::default()
    };
    let rr = Given::Report {
        ssrc: 1,
        sender: None,
        blocks: BlockLists::of(&[block]),
        padding: 0,
    };
    Operation::Write(rr, vec![STALE; 32])
}

fn write_app(data: usize, buffer: usize) -> Operation {
    let app = Given::App {
        subtype: 0,
        ssrc: 0,
        name: Vec::new(),
        data: vec![0; data],
        padding: 0,
    };
    Operation::Write(app, vec![STALE; buffer])
}

fn item(item_type: u8, value: &[u8]) -> Item {
    Item {
        item_type,
        prefix: Vec::new(),
        value: value.to_vec(),
    }
}

// ---- the conditions

type Condition = fn(&Operation) -> bool;

fn condition(text: &str) -> Condition {
    let condition = reading_condition(text).or_else(|| writing_condition(text));
    condition.unwrap_or_else(|| panic!("{text}"))
}

fn reading_condition(text: &str) -> Option<Condition> {
    Some(match text {
        "P is set, and the count is no multiple of 4 or above L less the least length" => |o| {
            padded(o).is_some_and(|packet| !packet.count_is_valid())
        },
        "P is set, the count is valid, and the sources, the blocks, or the reason that the byte \
         after the sources gives end after the body" => |o| {
            padded(o).is_some_and(|packet| packet.count_is_valid() && packet.ends_after_the_body())
        },
        "P is set in SDES" => |o| padded(o).is_some_and(|packet| packet.kind == Kind::Sdes),
        "a byte 0 follows the boundary that a chunk ends on" => |o| {
            places(o).contains(&Place::ChunkEndBeforeZero)
        },
        "the body ends before the header's count of chunks, or goes on after them" => |o| {
            places(o).contains(&Place::OtherCount)
        },
        "a chunk's bytes end on a boundary, before a closing zero" => |o| {
            places(o).contains(&Place::NoClosingZero)
        },
        "an item starts with 2 or 3 bytes left" => |o| places(o).contains(&Place::ShortItem),
        "PRIV, prefix length > length − 1, and prefix length + 3 ≤ bytes left" => |o| {
            places(o).contains(&Place::PrefixPastItem)
        },
        "any chunk, but not one with a single item whose length is 1 more than a multiple of 4" => {
            |o| places(o).contains(&Place::OtherLength)
        }
        "the first of the 24 bits of a loss is 1" => |o| {
            loss_starts(o).iter().any(|byte| byte & 0x80 != 0)
        },
        _ => return None,
    })
}

fn writing_condition(text: &str) -> Option<Condition> {
    Some(match text {
        "a reason that is not empty and whose length + 1 is no multiple of 4, and padding" => {
            |o| match o {
                Operation::Write(
                    Given::Bye {
                        reason, padding, ..
                    },
                    _,
                ) => !reason.is_empty() && (reason.len() + 1) % 4 != 0 && *padding > 0,
                _ => false,
            }
        }
        "size > 262,144" => {
            |o| matches!(o, Operation::Write(given, _) if size(given) == Err(Refusal::OVERSIZED))
        }
        "chunk > 262,140 bytes" => |o| {
            matches!(o, Operation::WriteChunk(lists, _)
                if size_of_chunk(lists) == Err(Refusal::OVERSIZED))
        },
        "a lent item type of 0" => |o| match o {
            Operation::Write(Given::Sdes { lists, .. }, _) => lists.items.types.contains(&0),
            Operation::WriteChunk(lists, _) => lists.items.types.contains(&0),
            Operation::WriteItem(item, _) => item.item_type == 0,
            _ => false,
        },
        "a loss above 8,388,607" => |o| {
            matches!(o, Operation::Write(Given::Report { blocks, .. }, _)
                if blocks.losses.iter().any(|loss| *loss > 8_388_607))
        },
        // Such calls cannot be put to the Rust.
        "bytes that are not UTF-8" | "a loss below −8,388,608" => |_| false,
        _ => return None,
    })
}

/// A packet with P set whose header is fine up to the padding.
struct Padded<'a> {
    kind: Kind,
    bytes: &'a [u8],
    count: usize,
}

fn packet(operation: &Operation) -> Option<(Kind, &[u8])> {
    let (kind, bytes) = match operation {
        Operation::ReadAs(kind, bytes) | Operation::ReadBlockAt(kind, bytes, _) => (*kind, bytes),
        Operation::ReadSourceAt(bytes, _) => (Kind::Bye, bytes),
        _ => return None,
    };
    check_header(kind, bytes).ok()?;
    Some((kind, bytes))
}

fn padded(operation: &Operation) -> Option<Padded<'_>> {
    let (kind, bytes) = packet(operation)?;
    (bytes[0] & 0x20 != 0).then(|| Padded {
        kind,
        bytes,
        count: bytes[bytes.len() - 1].into(),
    })
}

impl Padded<'_> {
    fn count_is_valid(&self) -> bool {
        self.count.is_multiple_of(4) && self.count <= self.bytes.len() - self.kind.least()
    }

    fn ends_after_the_body(&self) -> bool {
        let body = self.bytes.len() - self.count;
        let low = usize::from(self.bytes[0] & 31);
        match self.kind {
            Kind::Sr | Kind::Rr => self.kind.least() + 24 * low > body,
            Kind::Bye => {
                let sources = 4 + 4 * low;
                let reason = self.bytes.get(sources).map(|len| usize::from(*len));
                sources > body || reason.is_some_and(|len| sources + 1 + len > body)
            }
            Kind::Sdes | Kind::App => false,
        }
    }
}

/// The first byte of each loss that is read.
fn loss_starts(operation: &Operation) -> Vec<u8> {
    let at = |bytes: &[u8], block: usize| bytes.get(block + 5).copied();
    match (operation, packet(operation)) {
        (Operation::ReadBlock(bytes), _) => at(bytes, 0).into_iter().collect(),
        (_, Some((kind @ (Kind::Sr | Kind::Rr), bytes))) => {
            let count = usize::from(bytes[0] & 31);
            let read = |block: &usize| match operation {
                Operation::ReadBlockAt(_, _, index) => *index == *block as u64,
                _ => true,
            };
            let blocks = (0..count).filter(read);
            blocks
                .filter_map(|block| at(bytes, kind.least() + 24 * block))
                .collect()
        }
        _ => Vec::new(),
    }
}

#[derive(PartialEq)]
enum Place {
    ChunkEndBeforeZero,
    OtherCount,
    NoClosingZero,
    ShortItem,
    PrefixPastItem,
    OtherLength,
}

/// What a reading of chunks and items comes by, up to its first refusal.
fn places(operation: &Operation) -> Vec<Place> {
    let mut places = Vec::new();
    match operation {
        Operation::ReadItem(bytes) | Operation::ReadPrefix(bytes) => {
            item_places(bytes, &mut places);
        }
        Operation::ReadChunk(bytes) => drop(chunk_places(bytes, &mut places)),
        _ => {
            if let Some((Kind::Sdes, bytes)) = packet(operation) {
                sdes_places(bytes, &mut places);
            }
        }
    }
    places
}

fn sdes_places(body: &[u8], places: &mut Vec<Place>) {
    let mut used = 4;
    for _ in 0..body[0] & 31 {
        if used == body.len() {
            return places.push(Place::OtherCount);
        }
        match chunk_places(&body[used..], places) {
            Some(length) => used += length,
            None => return,
        }
    }
    if used < body.len() {
        places.push(Place::OtherCount);
    }
}

fn chunk_places(bytes: &[u8], places: &mut Vec<Place>) -> Option<usize> {
    let mut at = 4;
    while at < bytes.len() && bytes[at] != 0 {
        item_places(&bytes[at..], places);
        at += read_item(&bytes[at..]).ok()?.1;
    }
    if at == bytes.len() && at % 4 == 0 {
        places.push(Place::NoClosingZero);
    }
    let (chunk, length) = read_chunk(bytes).ok()?;
    if bytes.get(length) == Some(&0) {
        places.push(Place::ChunkEndBeforeZero);
    }
    let equal = match &chunk.items[..] {
        [item] => (layout_item(item).len() - 2) % 4 == 1,
        _ => false,
    };
    if !equal {
        places.push(Place::OtherLength);
    }
    Some(length)
}

fn item_places(bytes: &[u8], places: &mut Vec<Place>) {
    let left = bytes.len();
    if left == 2 || left == 3 {
        places.push(Place::ShortItem);
    }
    if let [PRIV, length, prefix, ..] = bytes {
        let prefix = usize::from(*prefix);
        if prefix + 1 > usize::from(*length) && prefix + 3 <= left {
            places.push(Place::PrefixPastItem);
        }
    }
}

/// The conditions of some lines.
fn conditions(wanted: impl Fn(&Line) -> bool) -> Vec<Condition> {
    let lines = table().into_iter().filter(wanted);
    let mut texts: Vec<String> = lines.map(|line| line.condition).collect();
    texts.dedup();
    texts.iter().map(|text| condition(text)).collect()
}

/// Random and enumerated operations that the Rust can be asked, with what it shows.
fn asked(mut check: impl FnMut(&Operation, View)) {
    let mut ask = |operation: &Operation| {
        if let Some(rust) = Rust.view(operation) {
            check(operation, rust);
        }
    };
    let mut rng = Rng::new(3);
    for _ in 0..100_000 {
        let sort = Sort::any(&mut rng);
        ask(&operation(&mut rng, sort));
    }
    let mut at = 0;
    limits::enumerate(&mut |operation| {
        at += 1;
        if at % 7 == 0 {
            ask(&operation);
        }
    });
}

#[test]
fn outside_the_conditions_answers_are_equal() {
    // Row 8 changes one number of almost every chunk, and row 10 one of many blocks, so
    // they are kept apart.
    let lengths = conditions(|line| line.rows == [8]);
    let losses = conditions(|line| line.rows == [10]);
    let others = conditions(|line| line.rows != [8] && line.rows != [10]);
    let mut differing = [0; 3];
    asked(|operation, rust| {
        let rows = explain(operation, &rust).expect("rows explain it");
        let mut hold = |conditions: &[Condition], count: usize| {
            let holds = conditions.iter().any(|condition| condition(operation));
            assert!(holds, "{}", inputs(operation));
            differing[count] += 1;
        };
        if rows.has(10) {
            hold(&losses, 0);
        }
        match rows.without(10) {
            Rows::NONE => {}
            rows if rows == Rows::of(&[8]) => hold(&lengths, 1),
            _ => hold(&others, 2),
        }
    });
    assert!(
        differing.iter().all(|count| *count > 2_000),
        "{differing:?}"
    );
}

/// The losses that a view shows.
fn losses_shown(view: &View) -> Vec<i128> {
    let shown = view.fields.iter().filter_map(|(name, value)| match value {
        Value::Number(number) if *name == "cumulative_lost" => Some(*number),
        _ => None,
    });
    shown.collect()
}

/// A loss that is read is the Rust's number, less 2^24 exactly where the first of the 24
/// bits is 1. A report that is written differs exactly where 17 refuses it.
#[test]
fn losses_differ_by_their_sign_alone() {
    let mut seen = [0; 4];
    asked(|operation, rust| {
        let here = Model.view(operation).expect("the model");
        if (here.verdict, rust.verdict) == (Verdict::Accepted, Verdict::Accepted) {
            let (ours, theirs) = (losses_shown(&here), losses_shown(&rust));
            assert_eq!(ours.len(), theirs.len(), "{}", inputs(operation));
            for (ours, theirs) in ours.into_iter().zip(theirs) {
                let first_bit = theirs >> 23;
                assert_eq!(ours, theirs - (first_bit << 24), "{}", inputs(operation));
                seen[usize::try_from(first_bit).expect("24 bits")] += 1;
            }
        }
        if let Operation::Write(Given::Report { .. }, _) = operation {
            let outside = matches!(here.verdict, Verdict::Refused(Refusal { number: 17, .. }));
            assert_eq!(here.agrees(&rust), !outside, "{}", inputs(operation));
            seen[2 + usize::from(outside)] += 1;
        }
    });
    assert!(seen.iter().all(|count| *count > 1_000), "{seen:?}");
}
