//! The sample's answers are those of the static library, where it is there.
#![cfg(rtcp_types)]

use compare::program::{shown, Row};
use compare::sample::{lines, READING, WRITING};
use library::*;

#[test]
fn the_library_answers_as_the_sample() {
    for line in lines(&READING, 600, 1) {
        let row = Row::parse(&line.input);
        if let Some(given) = given(&row) {
            assert_eq!(shown(&given), line.answer, "{} {}", line.name, line.input);
        }
    }
}

#[test]
fn a_seed_fixes_the_sample() {
    let text = |seed| -> Vec<String> {
        let lines = lines(&READING, 50, seed).into_iter();
        lines.map(|line| line.name + &line.input).collect()
    };
    assert_eq!(text(1), text(1));
    assert_ne!(text(1), text(2));
}

/// The program `rows` replays the samples, readings first: what its files have of
/// them is all of them.
#[test]
fn the_lists_of_the_program_are_the_samples() {
    let mut sample = lines(&READING, 600, 1);
    sample.extend(lines(&WRITING, 300, 1));
    assert_eq!(sample.len(), 900);
    let inputs = sample
        .iter()
        .map(|line| format!("{} {}", line.name, line.input));
    replayed("stdin", inputs.collect());
    let answers = sample
        .iter()
        .map(|line| format!("{}:{}", line.name, line.answer));
    replayed("stdout", answers.collect());
}

fn replayed(file: &str, wanted: Vec<String>) {
    let folder = concat!(env!("CARGO_MANIFEST_DIR"), "/../../crates/rows/");
    let text = std::fs::read_to_string(folder.to_string() + file).expect("the program's file");
    let of_sample = |line: &&str| {
        let rest = line.strip_prefix("row").unwrap_or_default();
        line.starts_with("rust-") || rest.starts_with(|c: char| c.is_ascii_digit())
    };
    let found: Vec<&str> = text.lines().filter(of_sample).collect();
    assert!(found == wanted, "crates/rows/{file}");
}

/// What the C function gives, or nothing where it is not there.
fn given(row: &Row) -> Option<Vec<i128>> {
    let s = &row.bytes[..];
    let n = |at| row.number::<u64>(at);
    Some(match row.function.as_str() {
        "sr_parse" => all(rtcp_sr_parse(s)?),
        "rr_parse" => all(rtcp_rr_parse(s)?),
        "sdes_parse" => all(rtcp_sdes_parse(s)?),
        "bye_parse" => all(rtcp_bye_parse(s)?),
        "app_parse" => all(rtcp_app_parse(s)?),
        "block_parse" => all(rtcp_block_parse(s)?),
        "sr_report_block" => all(rtcp_sr_report_block(s, n(0))?),
        "rr_report_block" => all(rtcp_rr_report_block(s, n(0))?),
        "bye_source" => all(rtcp_bye_source(s, n(0))?),
        "item_parse" => all(rtcp_item_parse(s)?),
        "item_priv_prefix" => all(rtcp_item_priv_prefix(s)?),
        "chunk_parse" => all(rtcp_chunk_parse(s)?),
        "chunk_walk_step" => all(rtcp_chunk_walk_step(s, n(0), n(1))?),
        "item_walk_step" => all(rtcp_item_walk_step(s, n(0))?),
        other => panic!("{other}"),
    })
}

/// The numbers of a result.
fn all<R: Outcome>(result: R) -> Vec<i128> {
    let Head {
        number,
        first,
        second,
    } = result.head();
    let head = [number, first, second].map(i128::from);
    [head.to_vec(), result.fields()].concat()
}
