//! A page, complete in itself: participants, refusals, and loss and jitter over
//! time.

use crate::drawings::drawings;
use crate::options::Options;
use crate::sources::{Reported, Source};
use crate::summary::{Summary, KINDS};
use crate::tables::milliseconds;
use crate::text::escaped;

/// As many senders of a fault are named.
const MOST_SENDERS: usize = 12;

const STYLE: &str = "\
:root { color-scheme: light; }
body { font: 15px/1.45 system-ui, sans-serif; color: #1c1c1c; background: #fff;
  max-width: 76rem; margin: 1.5rem auto; padding: 0 1.2rem; }
h1 { font-size: 1.5rem; margin: 0 0 .2rem; } h2 { font-size: 1.15rem; margin: 2rem 0 .5rem; }
h3 { font-size: 1rem; margin: 1.4rem 0 .3rem; overflow-wrap: anywhere; } p { margin: .3rem 0; } .note { color: #555; }
code, td.number { font-family: ui-monospace, monospace; font-size: .93em; }
.numbers { display: flex; flex-wrap: wrap; gap: .6rem; margin: .8rem 0; padding: 0; list-style: none; }
.numbers li { border: 1px solid #ccc; border-radius: 4px; padding: .3rem .8rem; }
.numbers b { display: block; font-size: 1.25rem; } .bad b { color: #b00020; }
table { border-collapse: collapse; width: 100%; } .wide { overflow-x: auto; }
th, td { text-align: left; vertical-align: top; padding: .25rem .6rem; border-bottom: 1px solid #ddd; }
th { border-bottom: 2px solid #888; font-weight: 600; } .name { overflow-wrap: break-word; max-width: 22rem; }
.number { text-align: right; } td.number, code { white-space: nowrap; }
.drawings { display: grid; grid-template-columns: repeat(auto-fit, minmax(20rem, 1fr)); gap: .6rem; }
svg { width: 100%; height: auto; } svg text { font: 12px system-ui, sans-serif; fill: #333; }
svg .title { font-weight: 600; font-size: 13px; } svg .grid { stroke: #e2e2e2; }
svg .axis { stroke: #777; } .pen { width: 2.4rem; height: .8rem; vertical-align: middle; }
blockquote { margin: .2rem 0 0; padding-left: .6rem; border-left: 3px solid #ccc; color: #444; }
@page { size: landscape; margin: 12mm; }
@media print { body { font-size: 9pt; margin: 0; max-width: none; padding: 0; }
  .drawings { grid-template-columns: repeat(3, 1fr); } .wide { overflow: visible; }
  .name { overflow-wrap: anywhere; }
  section, tr, svg { break-inside: avoid; } h2, h3 { break-after: avoid; } }
";

pub fn page(summary: &Summary, options: &Options) -> String {
    let files = options.files.iter();
    let files = files.map(|file| marked(&escaped(file.as_encoded_bytes())));
    let files: Vec<String> = files.collect();
    [
        "<!DOCTYPE html>\n<html lang=\"en\">\n<head>\n<meta charset=\"utf-8\">\n".into(),
        "<meta name=\"viewport\" content=\"width=device-width, initial-scale=1\">\n".into(),
        format!("<title>RTCP: {}</title>\n", files.join(", ")),
        format!("<style>\n{STYLE}</style>\n</head>\n<body>\n<h1>RTCP reports</h1>\n"),
        format!("<p class=\"note\">{}</p>\n", files.join(", ")),
        numbers(summary),
        participants(summary, options.ssrc),
        refusals(summary),
        drawings(summary, options.ssrc),
        "</body>\n</html>\n".into(),
    ]
    .concat()
}

/// A text in which HTML sees no marks.
pub fn marked(text: &str) -> String {
    let mut marked = String::new();
    for character in text.chars() {
        match character {
            '&' => marked += "&amp;",
            '<' => marked += "&lt;",
            '>' => marked += "&gt;",
            '"' => marked += "&quot;",
            _ => marked.push(character),
        }
    }
    marked
}

fn numbers(summary: &Summary) -> String {
    let mut numbers = vec![
        ("datagrams".to_string(), summary.datagrams, false),
        ("refused".to_string(), summary.refused, summary.refused > 0),
    ];
    let kinds = KINDS.map(|kind| (format!("{kind} packets"), summary.packets(kind), false));
    numbers.extend(kinds.into_iter().filter(|(_, count, _)| *count > 0));
    let damages = summary.damages + summary.bad_lines;
    if damages > 0 {
        numbers.push(("damaged places in the input".into(), damages, true));
    }
    let item = |(name, count, is_bad): &(String, u64, bool)| {
        let class = if *is_bad { " class=\"bad\"" } else { "" };
        format!("<li{class}><b>{count}</b>{name}</li>\n")
    };
    let items: String = numbers.iter().map(item).collect();
    format!("<ul class=\"numbers\">\n{items}</ul>\n")
}

const PARTICIPANTS: &str = "<h2>Participants</h2>\n<div class=\"wide\"><table>\n\
<tr><th>SSRC</th><th>CNAME</th><th>from</th><th class=\"number\">SR</th><th class=\"number\">RR</th>\
<th class=\"number\">BYE</th><th>reported by</th><th class=\"number\">blocks</th>\
<th class=\"number\">fraction lost</th><th class=\"number\">lost</th>\
<th class=\"number\">jitter</th><th class=\"number\">round trip</th></tr>\n";

fn participants(summary: &Summary, only: Option<u32>) -> String {
    let sources = summary.sources.by_ssrc.iter();
    let sources = sources.filter(|(ssrc, _)| only.is_none_or(|only| only == **ssrc));
    let rows: String = sources.map(|(ssrc, source)| rows(*ssrc, source)).collect();
    if rows.is_empty() {
        return "<h2>Participants</h2>\n<p>No source is named in this input.</p>\n".into();
    }
    let cut = match summary.sources.is_cut {
        true => "<p class=\"note\">There are more sources, which are not counted.</p>\n",
        false => "",
    };
    let note = "<p class=\"note\">Fraction lost, loss, jitter (in units of the RTP timestamp) and \
                round trip are the last that were reported. A loss is below zero where more \
                duplicates came than packets were lost.</p>\n";
    format!("{PARTICIPANTS}{rows}</table></div>\n{note}{cut}")
}

fn rows(ssrc: u32, source: &Source) -> String {
    let cname = source.cname.as_deref().map_or("–".into(), escaped);
    let address = source.address.as_deref().unwrap_or("–");
    let span = source.reporters.len().max(1);
    let start = format!(
        "<tr><td rowspan=\"{span}\"><code>{ssrc:08x}</code></td><td class=\"name\" \
         rowspan=\"{span}\">{}</td><td class=\"name\" rowspan=\"{span}\">{}</td>{}",
        marked(&cname),
        marked(address),
        [source.sender_reports, source.receiver_reports, source.byes]
            .map(|it| format!("<td class=\"number\" rowspan=\"{span}\">{it}</td>"))
            .concat()
    );
    if source.reporters.is_empty() {
        return format!("{start}<td colspan=\"6\" class=\"note\">nobody</td></tr>\n");
    }
    let cells: Vec<String> = source.reporters.iter().map(cells).collect();
    format!("{start}{}</tr>\n", cells.join("</tr>\n<tr>"))
}

fn cells((reporter, reported): (&u32, &Reported)) -> String {
    let numbers = [
        reported.blocks.to_string(),
        percent(reported.fraction),
        reported.lost.to_string(),
        reported.jitter.to_string(),
        reported.round_trip.map_or("–".into(), milliseconds),
    ];
    let numbers = numbers.map(|it| format!("<td class=\"number\">{it}</td>"));
    format!("<td><code>{reporter:08x}</code></td>{}", numbers.concat())
}

fn percent(fraction: u8) -> String {
    format!("{:.1} %", f64::from(fraction) / 2.56)
}

fn refusals(summary: &Summary) -> String {
    if summary.refusals.is_empty() {
        return "<h2>Refusals</h2>\n<p>No datagram is refused.</p>\n".into();
    }
    let mut text = "<h2>Refusals</h2>\n<table>\n<tr><th class=\"number\">datagrams</th>\
                    <th class=\"number\">refusal</th><th>why</th><th>from</th></tr>\n"
        .to_string();
    for ((number, why), refused) in &summary.refusals {
        let senders = refused.by_sender.iter().take(MOST_SENDERS);
        let senders = senders.map(|(sender, count)| format!("{}&nbsp;({count})", marked(sender)));
        let mut senders: Vec<String> = senders.collect();
        if refused.by_sender.len() > MOST_SENDERS {
            senders.push(format!(
                "and {} more",
                refused.by_sender.len() - MOST_SENDERS
            ));
        }
        text += &format!(
            "<tr><td class=\"number\">{}</td><td class=\"number\">{number}</td><td>{}\
             <blockquote>RFC 3550 {}: {}</blockquote></td><td class=\"name\">{}</td></tr>\n",
            refused.count,
            marked(why),
            refused.rule.section,
            marked(refused.rule.sentence),
            senders.join("<br>")
        );
    }
    text + "</table>\n"
}
