//! The summary, as text and as JSON.

use crate::fields::OTHER;
use crate::json::{quoted, Object};
use crate::sources::{Reported, Source};
use crate::summary::{Refused, Summary, KINDS};
use crate::text::escaped;
use std::io::{self, Write};

/// Prints the summary; of the sources only one, where it is asked for.
pub fn print(out: &mut impl Write, summary: &Summary, only: Option<u32>) -> io::Result<()> {
    let read = summary.datagrams - summary.refused;
    writeln!(out, "summary")?;
    writeln!(out, "  datagrams: {}", summary.datagrams)?;
    writeln!(out, "    read: {read}")?;
    writeln!(out, "    refused: {}", summary.refused)?;
    for (number, count) in summary.by_number() {
        writeln!(out, "      by refusal {number}: {count}")?;
    }
    let packets = KINDS.map(|kind| (kind, summary.packets(kind)));
    let all: u64 = packets.iter().map(|(_, count)| count).sum();
    writeln!(out, "  packets: {all}")?;
    for (kind, count) in packets {
        let types = if kind == OTHER { " types" } else { "" };
        writeln!(out, "    {kind}{types}: {count}")?;
    }
    records(out, summary)?;
    if summary.bad_lines > 0 {
        writeln!(out, "  lines that are not hex: {}", summary.bad_lines)?;
    }
    if summary.damages > 0 {
        writeln!(out, "  damaged places: {}", summary.damages)?;
    }
    sources(out, summary, only)?;
    refusals(out, summary)
}

fn records(out: &mut impl Write, summary: &Summary) -> io::Result<()> {
    let [all, parts @ ..] = summary.records.counts();
    if all.1 == 0 {
        return Ok(());
    }
    writeln!(out, "  {}: {}", all.0, all.1)?;
    for (kind, count) in parts.iter().filter(|(_, count)| *count > 0) {
        writeln!(out, "    {kind}: {count}")?;
    }
    Ok(())
}

const COLUMNS: [&str; 9] = [
    "SSRC",
    "SR",
    "RR",
    "reporter",
    "blocks",
    "fraction",
    "lost",
    "jitter",
    "round trip",
];

/// A row for each source and each that reports about it: the last values.
fn sources(out: &mut impl Write, summary: &Summary, only: Option<u32>) -> io::Result<()> {
    let is_shown = |ssrc: &u32| only.is_none_or(|only| only == *ssrc);
    let shown = summary.sources.by_ssrc.iter();
    let shown: Vec<(&u32, &Source)> = shown.filter(|(ssrc, _)| is_shown(ssrc)).collect();
    if shown.is_empty() {
        return Ok(());
    }
    let rows: Vec<Vec<String>> = shown
        .iter()
        .flat_map(|(ssrc, it)| rows(**ssrc, it))
        .collect();
    let width = |column: usize| {
        let cells = rows.iter().map(|row| row[column].len());
        cells.chain([COLUMNS[column].len()]).max().unwrap_or(0)
    };
    let widths: Vec<usize> = (0..COLUMNS.len()).map(width).collect();
    writeln!(out, "sources")?;
    let names = COLUMNS.map(String::from);
    for row in [&names[..]]
        .into_iter()
        .chain(rows.iter().map(Vec::as_slice))
    {
        let cells = row.iter().zip(&widths);
        let cells = cells.map(|(cell, width)| format!("  {cell:>width$}"));
        let cells: String = cells.collect();
        let rest = if row[0] == COLUMNS[0] {
            "CNAME, from"
        } else {
            row.get(9).map_or("", |it| it)
        };
        writeln!(out, "{}", format!("{cells}  {rest}").trim_end())?;
    }
    if summary.sources.is_cut {
        writeln!(out, "  and more sources, which are not counted")?;
    }
    Ok(())
}

/// The rows of a source, its name after the last column of the first.
fn rows(ssrc: u32, source: &Source) -> Vec<Vec<String>> {
    let mut name = match &source.cname {
        Some(cname) => format!("\"{}\"", escaped(cname)),
        None => "-".into(),
    };
    if let Some(address) = &source.address {
        name += &format!(", {address}");
    }
    let start = [
        format!("{ssrc:08x}"),
        source.sender_reports.to_string(),
        source.receiver_reports.to_string(),
    ];
    let none = ["-"; 6].map(String::from).to_vec();
    let mut reported: Vec<Vec<String>> = source.reporters.iter().map(cells).collect();
    if reported.is_empty() {
        reported.push(none);
    }
    let starts = [start]
        .into_iter()
        .chain(std::iter::repeat(["", "", ""].map(String::from)));
    let names = [name].into_iter().chain(std::iter::repeat(String::new()));
    let rows = starts.zip(reported).zip(names);
    rows.map(|((start, cells), name)| [&start[..], &cells[..], &[name]].concat())
        .collect()
}

fn cells((reporter, reported): (&u32, &Reported)) -> Vec<String> {
    vec![
        format!("{reporter:08x}"),
        reported.blocks.to_string(),
        format!("{}/256", reported.fraction),
        reported.lost.to_string(),
        reported.jitter.to_string(),
        reported.round_trip.map_or("-".into(), milliseconds),
    ]
}

pub fn milliseconds(seconds: f64) -> String {
    format!("{:.3} ms", 1000.0 * seconds)
}

fn refusals(out: &mut impl Write, summary: &Summary) -> io::Result<()> {
    if summary.refusals.is_empty() {
        return Ok(());
    }
    writeln!(out, "refusals")?;
    for ((number, text), refused) in &summary.refusals {
        writeln!(out, "  refusal {number}, {text}: {}", refused.count)?;
        for (sender, count) in &refused.by_sender {
            writeln!(out, "    from {sender}: {count}")?;
        }
    }
    Ok(())
}

/// The last line of the JSON output.
pub fn json(summary: &Summary, only: Option<u32>) -> String {
    let kinds = KINDS.iter().fold(Object::new(), |object, kind| {
        object.field(kind, summary.packets(kind))
    });
    let [all, parts @ ..] = summary.records.counts();
    let records = Object::new().field("all", all.1);
    let records = parts.iter().fold(records, |object, (name, count)| {
        object.field(&name.replace(' ', "_"), count)
    });
    let sources = summary.sources.by_ssrc.iter();
    let sources = sources.filter(|(ssrc, _)| only.is_none_or(|only| only == **ssrc));
    Object::line("summary")
        .field("datagrams", summary.datagrams)
        .field("refused", summary.refused)
        .field("packets", kinds.end())
        .field("records", records.end())
        .field("lines_that_are_not_hex", summary.bad_lines)
        .field("damaged_places", summary.damages)
        .list("sources", sources.map(|(ssrc, it)| json_source(*ssrc, it)))
        .list("refusals", summary.refusals.iter().map(json_refusal))
        .end()
}

fn json_source(ssrc: u32, source: &Source) -> String {
    let object = Object::new().ssrc("ssrc", ssrc);
    let object = match &source.cname {
        Some(cname) => object.words("cname", cname),
        None => object.field("cname", "null"),
    };
    let reported = source.reporters.iter().map(|(reporter, reported)| {
        Object::new()
            .ssrc("reporter", *reporter)
            .field("blocks", reported.blocks)
            .field("fraction_lost", reported.fraction)
            .field("cumulative_lost", reported.lost)
            .field("interarrival_jitter", reported.jitter)
            .maybe("round_trip_seconds", reported.round_trip)
            .end()
    });
    object
        .maybe("from", source.address.as_deref().map(quoted))
        .field("sender_reports", source.sender_reports)
        .field("receiver_reports", source.receiver_reports)
        .field("byes", source.byes)
        .list("reported_by", reported)
        .end()
}

fn json_refusal(((number, text), refused): (&(u64, &'static str), &Refused)) -> String {
    let senders = refused.by_sender.iter().map(|(sender, count)| {
        let object = Object::new().text("from", sender);
        object.field("count", count).end()
    });
    Object::new()
        .field("number", number)
        .text("text", text)
        .text("section", refused.rule.section)
        .text("sentence", refused.rule.sentence)
        .field("count", refused.count)
        .list("senders", senders)
        .end()
}
