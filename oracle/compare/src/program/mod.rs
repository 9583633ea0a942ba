//! The rows of the program `crates/rows`: their text, and what the model answers
//! to them.
//!
//! A row is `FUNCTION NUMBER.. BYTES`: a C function without `rtcp_`, a part of a
//! packet or of an item, `writer_set`, which sets the compound writer, or a form that
//! lends records (`rr_records`) or holds its bytes (`held_step`). A number is
//! decimal, and a loss below zero has its sign. Bytes are digits after an `x`, and
//! `*N` is the last byte N times more. An answer is `NUMBER.. BYTES`: every field of a
//! C result in its order; of a part its bytes; of a write what the size function and
//! the write answer, and the buffer; of a lookup its answer, and the buffer; of a call
//! of the compound writer its answer, the writer after it, and the buffer. A row of
//! reception figures has no bytes, and neither has its answer.
//!
//! In the program's files a name stands before each, and the first line of the input
//! has the functions' names.

mod lookup;
mod read;
mod reception;
mod write;

pub use lookup::is_lookup;
pub use reception::is_reception;
pub use write::is_write;

use crate::generate::STALE;
use crate::operation::Operation;
use crate::side::{Model, Side};
use crate::text::from_hex;
use crate::view::View;
use std::fmt::{Display, Formatter, Result};

/// The space that a buffer is a part of.
const SPACE: usize = 262_400;

/// Equal bytes from the ninth on are counted.
const SHOWN: usize = 8;

#[derive(Clone, Debug, Default, PartialEq, Eq)]
pub struct Row {
    pub function: String,
    pub numbers: Vec<i128>,
    pub bytes: Vec<u8>,
}

impl Row {
    pub fn new(function: &str, numbers: &[u64], bytes: &[u8]) -> Row {
        Row {
            function: function.to_string(),
            numbers: numbers.iter().copied().map(i128::from).collect(),
            bytes: bytes.to_vec(),
        }
    }

    pub fn parse(text: &str) -> Row {
        let mut words = text.split(' ');
        let mut row = Row::new(words.next().expect("a function"), &[], &[]);
        for word in words {
            match word.split_at(1) {
                ("x", digits) => row.bytes.extend(from_hex(digits)),
                ("*", count) => {
                    let last = *row.bytes.last().expect("a byte");
                    let count: usize = count.parse().expect("a number");
                    row.bytes.resize(row.bytes.len() + count, last);
                }
                _ => row.numbers.push(word.parse().expect("a number")),
            }
        }
        row
    }

    /// The number at a place, of that width.
    pub fn number<T: TryFrom<i128>>(&self, at: usize) -> T {
        let number = T::try_from(self.numbers[at]).ok();
        number.expect("a number of that width")
    }

    /// The numbers from one place to another, each of that width.
    fn list<T: TryFrom<i128>>(&self, from: usize, to: usize) -> Vec<T> {
        (from..to).map(|at| self.number(at)).collect()
    }

    /// The bytes up to the place that a number gives, and the others.
    fn split(&self, at: usize) -> (Vec<u8>, Vec<u8>) {
        let (first, second) = self.bytes.split_at(self.number(at));
        (first.to_vec(), second.to_vec())
    }
}

impl Display for Row {
    fn fmt(&self, f: &mut Formatter<'_>) -> Result {
        write!(f, "{}{}", self.function, shown(&self.numbers))?;
        if is_reception(&self.function) {
            return Ok(());
        }
        write!(f, " {}", run(&self.bytes))
    }
}

/// What the compound writer's calls leave to the next row: its numbers, and what
/// stands in the space.
pub struct Program {
    writer: [u64; 4],
    space: Vec<u8>,
}

impl Default for Program {
    fn default() -> Self {
        Program {
            writer: [0; 4],
            space: vec![0; SPACE],
        }
    }
}

impl Program {
    /// The model's answer.
    pub fn answer(&mut self, row: &Row) -> String {
        if let Some(function) = row.function.strip_suffix("_records") {
            return self.records(row, function);
        }
        if row.function.starts_with("writer_") {
            return self.call(row);
        }
        if is_whole(&row.function) {
            return expected(row);
        }
        match read::part(&row.function, &row.bytes) {
            Some(part) => format!(" {}", run(&part)),
            None => read::answer(row),
        }
    }
}

/// Whether a row has all that an operation takes: it writes, looks up or is of
/// reception figures.
pub fn is_whole(function: &str) -> bool {
    is_write(function) || is_lookup(function) || is_reception(function)
}

/// The row of such an operation, or nothing where it is another.
pub fn input(operation: &Operation) -> Option<Row> {
    if let Some(row) = reception::input(operation) {
        return Some(row);
    }
    let (mut row, buffer) = match operation {
        Operation::LookUp(bytes, ssrcs, buffer) => (lookup::input(bytes, ssrcs), &buffer[..]),
        _ => write::input(operation)?,
    };
    assert!(buffer.iter().all(|byte| *byte == STALE));
    row.numbers[0] = buffer.len() as i128;
    Some(row)
}

/// The operation of such a row.
pub fn operation(row: &Row) -> Operation {
    match &row.function[..] {
        function if is_lookup(function) => lookup::operation(row),
        function if is_reception(function) => reception::operation(row),
        _ => write::operation(row),
    }
}

/// What a view of that operation shows, as the program writes it.
pub fn answer_of(operation: &Operation, view: &View) -> String {
    match operation {
        Operation::LookUp(bytes, ..) => lookup::answer_of(bytes, view),
        Operation::NewReception(_) | Operation::Receive(..) | Operation::History(..) => {
            reception::answer_of(operation, view)
        }
        _ => write::answer_of(view),
    }
}

/// The model's answer to such a row.
fn expected(row: &Row) -> String {
    let operation = operation(row);
    answer_of(&operation, &Model.view(&operation).expect("the model"))
}

/// The lines that the program writes to the lines that it reads.
pub fn lines(input: &str) -> Vec<String> {
    let mut program = Program::default();
    let line = |line: &str| {
        let (name, row) = line.split_once(' ').expect("a name and a row");
        format!("{name}:{}", program.answer(&Row::parse(row)))
    };
    input.lines().skip(1).map(line).collect()
}

pub fn shown<T: Display>(numbers: &[T]) -> String {
    numbers.iter().map(|number| format!(" {number}")).collect()
}

fn run(bytes: &[u8]) -> String {
    let mut text = "x".to_string();
    for same in bytes.chunk_by(|a, b| a == b) {
        text += &format!("{:02x}", same[0]).repeat(same.len().min(SHOWN));
        if same.len() > SHOWN {
            text += &format!(" *{} x", same.len() - SHOWN);
        }
    }
    text
}
