//! Lines over time, drawn as SVG.

use std::fmt::Write;

const WIDTH: f64 = 400.0;
const HEIGHT: f64 = 210.0;
const LEFT: f64 = 62.0;
const RIGHT: f64 = 14.0;
const TOP: f64 = 30.0;
const BOTTOM: f64 = 30.0;
/// More points than this are drawn as a line alone.
const MOST_DOTS: usize = 60;

/// Colours that are told apart by most eyes, and dashes for print without colour.
pub const PENS: [(&str, &str); 6] = [
    ("#0060a8", "none"),
    ("#c24a00", "6 3"),
    ("#00785a", "2 3"),
    ("#8a3f8f", "9 3 2 3"),
    ("#5f5f5f", "4 4"),
    ("#a88400", "12 4"),
];

/// What is drawn with one pen.
pub struct Line {
    pub name: String,
    pub points: Vec<(f64, f64)>,
}

/// From where to where an axis goes.
#[derive(Clone, Copy)]
pub struct Span {
    pub low: f64,
    pub high: f64,
}

impl Span {
    /// A span that holds all values, and is not empty.
    pub fn of(values: impl Iterator<Item = f64>) -> Self {
        let (low, high) = values.fold((f64::MAX, f64::MIN), |(low, high), value| {
            (low.min(value), high.max(value))
        });
        match low < high {
            true => Span { low, high },
            false if low == high => Span {
                low,
                high: low + 1.0,
            },
            false => Span {
                low: 0.0,
                high: 1.0,
            },
        }
    }

    /// Round numbers, from four to ten of them in the span.
    fn ticks(self) -> Vec<f64> {
        let rough = (self.high - self.low) / 4.0;
        let power = 10f64.powf(rough.log10().floor());
        let step = [1.0, 2.0, 5.0, 10.0].map(|it| it * power);
        let step = step.into_iter().rfind(|step| *step <= rough * 1.001);
        let step = step.unwrap_or(power);
        let first = (self.low / step).ceil() as i64;
        let ticks = (first..first + 12).map(|tick| tick as f64 * step);
        ticks
            .take_while(|it| *it <= self.high * 1.000_001)
            .collect()
    }

    /// Where a value stands, from 0 to 1.
    fn place(self, value: f64) -> f64 {
        (value - self.low) / (self.high - self.low)
    }
}

/// An axis for time: its span, and how a value is written.
pub struct Axis {
    pub span: Span,
    pub label: fn(f64) -> String,
}

fn x(axis: &Axis, value: f64) -> f64 {
    LEFT + axis.span.place(value) * (WIDTH - LEFT - RIGHT)
}

fn y(span: Span, value: f64) -> f64 {
    HEIGHT - BOTTOM - span.place(value) * (HEIGHT - TOP - BOTTOM)
}

/// A drawing with its title, which must be free of HTML's marks. Its height is
/// from 0, or from the lowest value below it, to at least so much.
pub fn drawing(title: &str, axis: &Axis, least: f64, lines: &[Line]) -> String {
    let values = lines.iter().flat_map(|line| &line.points);
    let span = Span::of(values.map(|point| point.1).chain([0.0, least]));
    let mut svg = format!(
        "<svg viewBox=\"0 0 {WIDTH} {HEIGHT}\" role=\"img\" aria-label=\"{title}\">\
         <text class=\"title\" x=\"4\" y=\"16\">{title}</text>"
    );
    grid(&mut svg, axis, span);
    for (line, (colour, dashes)) in lines.iter().zip(PENS) {
        let points = line.points.iter();
        let points = points.map(|point| (x(axis, point.0), y(span, point.1)));
        let points: Vec<(f64, f64)> = points.collect();
        let path: String = points
            .iter()
            .map(|(x, y)| format!("{x:.1},{y:.1} "))
            .collect();
        let _ = write!(
            svg,
            "<polyline points=\"{}\" fill=\"none\" stroke=\"{colour}\" stroke-width=\"1.6\" \
             stroke-dasharray=\"{dashes}\"/>",
            path.trim_end()
        );
        if points.len() <= MOST_DOTS {
            dots(&mut svg, colour, line, &points, axis);
        }
    }
    svg + "</svg>"
}

fn grid(svg: &mut String, axis: &Axis, span: Span) {
    let (right, bottom) = (WIDTH - RIGHT, HEIGHT - BOTTOM);
    for tick in span.ticks() {
        let y = y(span, tick);
        // At 0 the line is as dark as the axis, and is seen where values are below it.
        let class = if tick == 0.0 { "axis" } else { "grid" };
        let _ = write!(
            svg,
            "<line class=\"{class}\" x1=\"{LEFT}\" x2=\"{right}\" y1=\"{y:.1}\" y2=\"{y:.1}\"/>\
             <text class=\"tick\" text-anchor=\"end\" x=\"{}\" y=\"{:.1}\">{}</text>",
            LEFT - 6.0,
            y + 4.0,
            short(tick)
        );
    }
    let mut last = String::new();
    for (value, anchor) in [
        (axis.span.low, "start"),
        ((axis.span.low + axis.span.high) / 2.0, "middle"),
        (axis.span.high, "end"),
    ] {
        let x = x(axis, value);
        let label = (axis.label)(value);
        if label == std::mem::replace(&mut last, label.clone()) {
            continue;
        }
        let _ = write!(
            svg,
            "<line class=\"axis\" x1=\"{x:.1}\" x2=\"{x:.1}\" y1=\"{bottom}\" y2=\"{}\"/>\
             <text class=\"tick\" text-anchor=\"{anchor}\" x=\"{x:.1}\" y=\"{}\">{label}</text>",
            bottom + 4.0,
            bottom + 19.0
        );
    }
    let _ = write!(
        svg,
        "<line class=\"axis\" x1=\"{LEFT}\" x2=\"{right}\" y1=\"{bottom}\" y2=\"{bottom}\"/>"
    );
}

/// A dot for each point, which says its values where a pointer rests on it.
fn dots(svg: &mut String, colour: &str, line: &Line, points: &[(f64, f64)], axis: &Axis) {
    for ((x, y), (time, value)) in points.iter().zip(&line.points) {
        let (label, name) = ((axis.label)(*time), &line.name);
        let _ = write!(
            svg,
            "<circle cx=\"{x:.1}\" cy=\"{y:.1}\" r=\"2.4\" fill=\"{colour}\"><title>{name}, \
             {label}: {}</title></circle>",
            short(*value)
        );
    }
}

/// A number with as many digits as a tick needs.
fn short(value: f64) -> String {
    let size = value.abs();
    match () {
        () if size >= 1e9 => format!("{:.1} G", value / 1e9),
        () if size >= 1e6 => format!("{:.1} M", value / 1e6),
        () if size >= 1e4 => format!("{:.0} k", value / 1e3),
        () if size >= 10.0 || value == value.trunc() => format!("{value:.0}"),
        () => format!("{value:.2}"),
    }
}
