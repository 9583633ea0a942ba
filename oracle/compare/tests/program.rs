//! The rows of the program `rows`: what its files say is what the model says, and
//! of rows that write, look up or are of reception figures what the static library says,
//! where it is there.

use compare::library::Library;
use compare::program::{
    answer_of, input, is_lookup, is_whole, is_write, lines, operation, Program, Row,
};
use compare::side::Side;
use library::guard;
use std::collections::BTreeSet;

fn file(name: &str) -> String {
    let folder = concat!(env!("CARGO_MANIFEST_DIR"), "/../../crates/rows/");
    std::fs::read_to_string(folder.to_string() + name).expect("the program's file")
}

struct Line {
    name: String,
    row: Row,
    text: String,
    /// What the program writes, without the name.
    answer: String,
}

fn rows() -> Vec<Line> {
    let (inputs, answers) = (file("stdin"), file("stdout"));
    assert_eq!(inputs.lines().count(), answers.lines().count() + 1);
    let line = |(input, answer): (&str, &str)| {
        let (name, row) = input.split_once(' ').expect("a name and a row");
        let answer = answer.strip_prefix(name).expect("the same name");
        Line {
            name: name.to_string(),
            row: Row::parse(row),
            text: row.to_string(),
            answer: answer[1..].to_string(),
        }
    };
    let rows = inputs.lines().skip(1).zip(answers.lines());
    rows.map(line).collect()
}

fn rows_that(is: fn(&str) -> bool) -> Vec<Line> {
    let rows = rows().into_iter();
    rows.filter(|line| is(&line.row.function)).collect()
}

fn writes() -> Vec<Line> {
    rows_that(is_write)
}

fn lookups() -> Vec<Line> {
    rows_that(is_lookup)
}

/// Those with all that an operation takes.
fn whole() -> Vec<Line> {
    rows_that(is_whole)
}

#[test]
fn the_answers_are_those_of_document_01() {
    let lines = lines(&file("stdin"));
    for (wanted, stored) in lines.iter().zip(file("stdout").lines()) {
        assert_eq!(stored, wanted);
    }
    assert_eq!(lines.len(), file("stdout").lines().count());
}

#[test]
fn the_library_answers_as_document_01() {
    for line in whole() {
        let operation = operation(&line.row);
        for side in [guard::Side::Start, guard::Side::End] {
            if let Some(view) = Library(side).view(&operation) {
                let answer = answer_of(&operation, &view);
                assert_eq!(answer, line.answer, "{}", line.name);
            }
        }
    }
}

/// A row that is read and shown again is the same row, so no word of it is lost.
#[test]
fn every_word_of_a_row_counts() {
    for line in rows() {
        assert_eq!(line.row.to_string(), line.text, "{}", line.name);
    }
    for line in whole() {
        let shown = input(&operation(&line.row)).expect("a whole row");
        assert_eq!(shown, line.row, "{}", line.name);
    }
}

#[test]
fn names_differ_and_every_refusal_is_there() {
    let rows = rows();
    let names: BTreeSet<&str> = rows.iter().map(|line| &line.name[..]).collect();
    assert_eq!(names.len(), rows.len());
    let writes = writes();
    let wrote = |line: &Line| line.answer.split(' ').nth(5).map(str::to_string);
    for number in 10..=24 {
        let refused = |line: &Line| wrote(line) == Some(number.to_string());
        assert!(writes.iter().any(refused), "{number}");
    }
    let lookups = lookups();
    for number in [0, 1, 2, 3, 4, 5, 6, 31] {
        let answered = |line: &Line| line.answer.starts_with(&format!(" {number} "));
        assert!(lookups.iter().any(answered), "{number}");
    }
    let functions = file("stdin");
    let functions = functions.lines().next().expect("the functions");
    for function in functions.split(' ') {
        assert!(
            rows.iter().any(|line| line.row.function == function),
            "{function}"
        );
    }
    for function in ["sr", "rr", "sdes", "bye", "app", "chunk", "item"] {
        let done = |line: &Line| {
            line.row.function == format!("{function}_write") && wrote(line) == Some("0".into())
        };
        assert!(writes.iter().any(done), "{function}");
    }
}

/// A call of the compound writer goes on from the last.
#[test]
fn calls_follow_each_other() {
    let mut program = Program::default();
    let mut answer = |row: &str| program.answer(&Row::parse(row));
    assert_eq!(answer("writer_new 8 x"), " 0 0 0 0 x5a5a5a5a5a5a5a5a");
    assert_eq!(
        answer("writer_add_rr 8 0 1 5 5 x"),
        " 0 0 0 8 0 0 0 x80c9000100000001"
    );
    assert_eq!(
        answer("writer_close 8 x"),
        " 28 0 0 8 0 0 0 x80c9000100000001"
    );
}
