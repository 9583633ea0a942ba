//! docs/REFUSALS.md: each example on the page is run, and each number has one.
//!
//! An example is a fenced block whose first line says `refusal`, the number and
//! a kind. Its last line is the answer, the lines before it what is run: a
//! datagram in hex, a call of this crate, or a call of the C library.

use bokyjave::prelude::*;
use bokyjave::{
    App, Bye, Compound, CompoundWriter, LookupAnswer, ReceiverReport, ReportBlock, Sdes, SdesChunk,
    SdesItem,
};
use std::collections::BTreeSet;
use std::io::Write;
use std::path::{Path, PathBuf};
use std::process::{Command, Stdio};

/// The last number on the page.
const LAST: u64 = 31;

struct Example {
    number: u64,
    kind: String,
    code: String,
    answer: String,
}

fn root() -> PathBuf {
    Path::new(env!("CARGO_MANIFEST_DIR")).join("..")
}

fn examples() -> Vec<Example> {
    let page = std::fs::read_to_string(root().join("docs/REFUSALS.md")).expect("the page");
    let mut lines = page.lines();
    let mut examples = Vec::new();
    while let Some(line) = lines.next() {
        let Some(title) = line.strip_prefix("```refusal ") else {
            continue;
        };
        let block: Vec<&str> = lines.by_ref().take_while(|line| *line != "```").collect();
        let (number, kind) = title.split_once(' ').expect("a number and a kind");
        let (answer, code) = block.split_last().expect("an answer");
        examples.push(Example {
            number: number.parse().expect("a number"),
            kind: kind.into(),
            code: code.join("\n"),
            answer: answer.to_string(),
        });
    }
    examples
}

fn of_kind(kind: &str) -> Vec<Example> {
    let mut examples = examples();
    examples.retain(|example| example.kind == kind);
    examples
}

#[test]
fn each_number_has_an_example_that_gets_it() {
    let examples = examples();
    for number in 1..=LAST {
        let count = examples.iter().filter(|it| it.number == number).count();
        assert!(count > 0, "no example of {number}");
    }
    for Example {
        number,
        kind,
        answer,
        ..
    } in &examples
    {
        assert!((1..=LAST).contains(number), "no refusal {number}");
        assert!(["hex", "rust", "c"].contains(&kind.as_str()), "{kind}");
        let named = [" ", ")", ":"].map(|end| format!("refusal {number}{end}"));
        assert!(named.iter().any(|it| answer.contains(it)), "{answer}");
    }
}

/// Each number has a section with its name, a rule, and what to tell the hall.
#[test]
fn each_number_has_a_section() {
    let page = std::fs::read_to_string(root().join("docs/REFUSALS.md")).expect("the page");
    let sections: Vec<&str> = page.split("\n## ").collect();
    let mut seen = Vec::new();
    for row in page.lines().filter(|line| line.starts_with("| ")) {
        let cells: Vec<&str> = row.split('|').map(str::trim).collect();
        let Ok(number) = cells[1].parse::<u64>() else {
            continue;
        };
        let title = format!("{number} {}\n", cells[2].replace(" (added)", ""));
        let section = sections.iter().find(|it| it.starts_with(&title));
        let section = section.unwrap_or_else(|| panic!("no section {title}"));
        assert!(section.contains("\n> ") || section.contains("\nRule: "));
        assert!(section.contains("\nTell the hall: "), "{title}");
        assert!(section.contains(&format!("\n```refusal {number} ")));
        seen.push(number);
    }
    assert_eq!(seen, (1..=LAST).collect::<Vec<u64>>());
}

/// The line that the program prints of a refused datagram.
fn printed(hex: &str) -> String {
    let mut child = Command::new(env!("CARGO_BIN_EXE_rtcpdump"))
        .stdin(Stdio::piped())
        .stdout(Stdio::piped())
        .spawn()
        .expect("rtcpdump");
    let mut stdin = child.stdin.take().expect("standard input");
    stdin.write_all(hex.as_bytes()).expect("a datagram");
    drop(stdin);
    let output = child.wait_with_output().expect("an end");
    let text = String::from_utf8(output.stdout).expect("text");
    let mut lines = text.lines();
    let refused = lines.find(|line| line.starts_with("  refused: "));
    refused.expect("a refusal").into()
}

#[test]
fn rtcpdump_says_of_each_datagram_what_the_page_says() {
    let examples = of_kind("hex");
    for example in &examples {
        assert_eq!(printed(&example.code), example.answer, "{}", example.code);
    }
    // The numbers that a datagram can get.
    let numbers: BTreeSet<u64> = examples.iter().map(|it| it.number).collect();
    assert!(numbers.into_iter().eq([1, 2, 3, 4, 5, 7, 8, 9]));
}

/// A call as it is written, and the text of its error.
type Call = (&'static str, fn() -> String);

macro_rules! calls {
    ($({ $($code:tt)* })*) => {
        [$((stringify!($($code)*), || {
            let call = || { $($code)* };
            call().map(|_| "accepted").unwrap_err().to_string()
        })),*]
    };
}

/// The calls on the page, in its order.
#[rustfmt::skip]
const CALLS: &[Call] = &calls! {
    { ReceiverReport::parse(&[0x80, 201, 0, 1, 0, 0, 0, 7, 0, 0, 0, 0]) }
    { ReceiverReport::parse(&[0x80, 200, 0, 1, 0, 0, 0, 7]) }
    { ReceiverReport::builder(7).write_into(&mut [0; 7]) }
    { ReceiverReport::builder(7).padding(3).write_into(&mut [0; 64]) }
    { App::builder(7, "hall").subtype(32).write_into(&mut [0; 64]) }
    { App::builder(7, "halls").write_into(&mut [0; 64]) }
    { App::builder(7, "hall").data(&[1, 2, 3]).write_into(&mut [0; 64]) }
    { (1..=32).fold(Bye::builder(), |bye, ssrc| bye.add_source(ssrc)).write_into(&mut [0; 1500]) }
    { Bye::builder().add_source(7).reason("x".repeat(256)).write_into(&mut [0; 1500]) }
    {
        ReceiverReport::builder(7)
            .add_report_block(ReportBlock::builder(8).cumulative_lost(8_388_608))
            .write_into(&mut [0; 64])
    }
    {
        ReceiverReport::builder(7)
            .add_report_block(ReportBlock::builder(8).cumulative_lost(-8_388_609))
            .write_into(&mut [0; 64])
    }
    {
        (1..=32)
            .fold(ReceiverReport::builder(7), |rr, ssrc| rr.add_report_block(ReportBlock::builder(ssrc)))
            .write_into(&mut [0; 1500])
    }
    {
        (1..=32)
            .fold(Sdes::builder(), |sdes, ssrc| sdes.add_chunk(SdesChunk::builder(ssrc)))
            .write_into(&mut [0; 1500])
    }
    { SdesItem::builder(SdesItem::CNAME, &"x".repeat(256)).write_into(&mut [0; 1500]) }
    { SdesItem::builder(SdesItem::PRIV, &"x".repeat(245)).prefix([b'p'; 10].as_slice()).write_into(&mut [0; 1500]) }
    { SdesItem::builder(SdesItem::PRIV, "").prefix([b'p'; 255].as_slice()).write_into(&mut [0; 1500]) }
    { App::builder(7, "hall").data(&[0; 262_136]).write_into(&mut [0; 64]) }
    { SdesItem::builder(0, "hall").write_into(&mut [0; 64]) }
    { ReceiverReport::parse(&[0x80, 201, 0, 1, 0, 0, 0, 7])?.report_block(0) }
    {
        let mut buf = [0; 64];
        let name = SdesItem::builder(SdesItem::CNAME, "a@b");
        let mut writer = CompoundWriter::new();
        writer.add(&mut buf, &ReceiverReport::builder(7))?;
        writer.add(&mut buf, &Sdes::builder().add_chunk(SdesChunk::builder(7).add_item(name)))?;
        writer.close()?;
        writer.close()
    }
    { Compound::builder().add_packet(Bye::builder().add_source(7)).write_into(&mut [0; 64]) }
    { Compound::builder().add_packet(ReceiverReport::builder(7)).write_into(&mut [0; 64]) }
    {
        Compound::builder()
            .add_packet(ReceiverReport::builder(7).padding(4))
            .add_packet(ReceiverReport::builder(7))
            .write_into(&mut [0; 64])
    }
    { SdesItem::parse(&[1, 1, b'a'])?.priv_prefix() }
    { Sdes::parse(&[0x80, 202, 0, 0])?.lookup(&[7, 8], &mut [LookupAnswer::NONE]) }
};

fn without_blanks(text: &str) -> String {
    text.split_whitespace().collect()
}

/// The calls that are run are those on the page, all of them and no other.
#[test]
fn each_call_of_the_crate_answers_what_the_page_says() {
    let examples = of_kind("rust");
    for (example, (code, answer)) in examples.iter().zip(CALLS) {
        assert_eq!(without_blanks(code), without_blanks(&example.code));
        assert_eq!(answer(), example.answer, "{code}");
    }
    assert_eq!(examples.len(), CALLS.len());
}

/// The folder of the archive, as build.rs finds it.
fn archive() -> PathBuf {
    let named = std::env::var_os("RTCP_LIB_DIR").unwrap_or_else(|| "../target/staticlib".into());
    let folder = Path::new(env!("CARGO_MANIFEST_DIR")).join(named);
    folder.join("librtcp.a")
}

/// A program that prints the answer of each call, compiled and run.
fn run_in_c(calls: &[Example]) -> String {
    let mut program = String::from("#include <stdio.h>\n#include \"rtcp.h\"\nint main(void) {\n");
    program += "    struct RtcpWritten w;\n";
    for call in calls {
        program += &format!("    w = {};\n    ", call.code);
        program += r#"printf("refusal %u (%u, %u)\n", (unsigned)w.number, (unsigned)w.first, (unsigned)w.second);"#;
        program += "\n";
    }
    program += "    return 0;\n}\n";
    let folder = Path::new(env!("CARGO_TARGET_TMPDIR"));
    let (source, runnable) = (folder.join("refusals.c"), folder.join("refusals"));
    std::fs::write(&source, program).expect("a source file");
    let compiled = Command::new("gcc")
        .args(["-std=c99", "-Wall", "-Wextra", "-Werror", "-o"])
        .arg(&runnable)
        .arg("-I")
        .arg(root().join("include"))
        .args([source, archive()])
        .status();
    assert!(compiled.expect("gcc").success());
    let output = Command::new(runnable).output().expect("a run");
    String::from_utf8(output.stdout).expect("text")
}

#[test]
fn each_call_in_c_answers_what_the_page_says() {
    let examples = of_kind("c");
    assert!(!examples.is_empty());
    let want: String = examples
        .iter()
        .map(|example| format!("{}\n", example.answer))
        .collect();
    assert_eq!(run_in_c(&examples), want);
}
