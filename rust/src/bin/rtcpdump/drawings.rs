//! Loss and jitter over time, drawn for each source.

use crate::html::marked;
use crate::series::{Point, Series};
use crate::sources::{Reported, Source};
use crate::summary::Summary;
use crate::svg::{drawing, Axis, Line, Span, PENS};
use crate::text::{count, escaped};

/// As many sources are drawn: those with the most blocks.
const MOST_DRAWN: usize = 48;

/// The drawings of all sources, or of the one that is asked for.
pub fn drawings(summary: &Summary, only: Option<u32>) -> String {
    let sources = summary.sources.by_ssrc.iter();
    let sources = sources.filter(|(ssrc, _)| only.is_none_or(|only| only == **ssrc));
    let sources = sources.filter(|(_, source)| !source.reporters.is_empty());
    let mut sources: Vec<(&u32, &Source)> = sources.collect();
    if sources.is_empty() {
        let text = "No report in this input has a block, so there is nothing to draw.";
        return format!("<h2>Loss and jitter over time</h2>\n<p>{text}</p>\n");
    }
    sources.sort_by_key(|(_, source)| std::cmp::Reverse(blocks(source)));
    let more = sources.len().saturating_sub(MOST_DRAWN);
    sources.truncate(MOST_DRAWN);
    let time = Clock::of(&sources);
    let mut text = format!(
        "<h2>Loss and jitter over time</h2>\n<p class=\"note\">From left to right: {}.</p>\n",
        time.name()
    );
    for (ssrc, source) in sources {
        text += &drawn(*ssrc, source, &time);
    }
    if more > 0 {
        let more = count(more, "more source");
        text += &format!("<p class=\"note\">{more}, with fewer blocks, not drawn.</p>\n");
    }
    text
}

fn blocks(source: &Source) -> u64 {
    source.reporters.values().map(|it| it.blocks).sum()
}

/// What the drawings have from left to right: seconds, the same for all
/// sources, where all points have them; else the numbers of the datagrams.
enum Clock {
    Seconds(Span),
    Numbers,
}

impl Clock {
    fn of(sources: &[(&u32, &Source)]) -> Self {
        let points = sources.iter().flat_map(|(_, source)| points_of(source));
        let seconds: Option<Vec<f64>> = points.map(|point| point.seconds).collect();
        match seconds {
            Some(seconds) => Clock::Seconds(Span::of(seconds.into_iter())),
            None => Clock::Numbers,
        }
    }

    fn at(&self, point: &Point) -> f64 {
        match self {
            Clock::Seconds(_) => point.seconds.unwrap_or(0.0),
            Clock::Numbers => point.number as f64,
        }
    }

    fn axis(&self, source: &Source) -> Axis {
        match self {
            Clock::Seconds(span) => Axis {
                span: *span,
                label: duration,
            },
            Clock::Numbers => Axis {
                span: Span::of(points_of(source).map(|point| self.at(point))),
                label: |number| match number.fract() == 0.0 {
                    true => number.to_string(),
                    false => String::new(),
                },
            },
        }
    }

    fn name(&self) -> &'static str {
        match self {
            Clock::Seconds(_) => "time from the first datagram on",
            Clock::Numbers => "numbers of the datagrams, as the input has no times",
        }
    }
}

fn points_of(source: &Source) -> impl Iterator<Item = &Point> {
    let reported = source.reporters.values();
    reported.flat_map(|it| it.series.points())
}

/// Hours, minutes and seconds.
fn duration(seconds: f64) -> String {
    let whole = seconds.max(0.0) as u64;
    let (hours, minutes) = (whole / 3600, whole / 60 % 60);
    match whole {
        0..=59 => format!("{seconds:.1} s"),
        60..=3599 => format!("{minutes}:{:02} min", whole % 60),
        _ => format!("{hours}:{minutes:02}:{:02} h", whole % 60),
    }
}

/// The three drawings of a source, with a line for each that reports about it.
fn drawn(ssrc: u32, source: &Source, time: &Clock) -> String {
    let name = source.cname.as_deref().map_or(String::new(), escaped);
    let mut reporters: Vec<(&u32, &Reported)> = source.reporters.iter().collect();
    reporters.sort_by_key(|(_, reported)| std::cmp::Reverse(reported.blocks));
    let more = reporters.len().saturating_sub(PENS.len());
    reporters.truncate(PENS.len());
    let line = |value: fn(&Point) -> f64| {
        let lines = reporters.iter().map(|(reporter, reported)| Line {
            name: format!("{reporter:08x}"),
            points: points(&reported.series, time, value),
        });
        lines.collect::<Vec<Line>>()
    };
    let drawings = [
        (
            "fraction lost, %",
            5.0,
            line(|it| f64::from(it.fraction) / 2.56),
        ),
        ("lost in all, packets", 5.0, line(|it| f64::from(it.lost))),
        (
            "jitter, RTP timestamp units",
            10.0,
            line(|it| f64::from(it.jitter)),
        ),
    ];
    let axis = time.axis(source);
    let drawings = drawings.map(|(title, least, lines)| drawing(title, &axis, least, &lines));
    let key = keys(&reporters, more);
    format!(
        "<section>\n<h3><code>{ssrc:08x}</code> {}</h3>\n<p class=\"note\">reported by {}</p>\n\
         <div class=\"drawings\">\n{}\n</div>\n</section>\n",
        marked(&name),
        key,
        drawings.join("\n")
    )
}

fn points(series: &Series, time: &Clock, value: fn(&Point) -> f64) -> Vec<(f64, f64)> {
    let points = series.points().iter();
    points.map(|point| (time.at(point), value(point))).collect()
}

/// Whose the pens are, and how many have none.
fn keys(reporters: &[(&u32, &Reported)], more: usize) -> String {
    let keys = reporters.iter().zip(PENS);
    let mut keys: Vec<String> = keys.map(|((ssrc, it), pen)| key(**ssrc, it, pen)).collect();
    if more > 0 {
        keys.push(format!("{more} more, not drawn"));
    }
    keys.join(", ")
}

/// A pen and whose it is.
fn key(reporter: u32, reported: &Reported, (colour, dashes): (&str, &str)) -> String {
    let blocks = count(reported.blocks as usize, "block");
    format!(
        "<svg class=\"pen\" viewBox=\"0 0 36 12\"><line x1=\"0\" x2=\"36\" y1=\"6\" y2=\"6\" \
         stroke=\"{colour}\" stroke-width=\"2.5\" stroke-dasharray=\"{dashes}\"/></svg> \
         <code>{reporter:08x}</code> ({blocks})"
    )
}
