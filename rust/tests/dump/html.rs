//! The page of `--html`.

use crate::{run, Run};
use std::path::Path;

/// The page that a run writes.
fn page(name: &str, words: &[&str], input: &[u8]) -> (Run, String) {
    let file = Path::new(env!("CARGO_TARGET_TMPDIR")).join(name);
    let file = file.to_str().expect("text");
    let words = [&["--summary", "--html", file], words].concat();
    let run = run(&words, input);
    let page = std::fs::read_to_string(file).expect("a page");
    (run, page)
}

/// Each element that is opened is closed, and the page needs nothing else.
fn assert_complete(page: &str) {
    assert!(page.starts_with("<!DOCTYPE html>\n<html lang=\"en\">\n"));
    assert!(page.ends_with("</body>\n</html>\n"));
    let open = [
        "html",
        "head",
        "title",
        "style",
        "body",
        "h1",
        "h2",
        "h3",
        "p",
        "ul",
        "li",
        "b",
        "table",
        "tr",
        "th",
        "td",
        "code",
        "blockquote",
        "section",
        "div",
        "svg",
        "text",
        "circle",
    ];
    for name in open {
        let opened = [" ", ">"].map(|end| page.matches(&format!("<{name}{end}")).count());
        let closed = page.matches(&format!("</{name}>")).count();
        assert_eq!(opened[0] + opened[1], closed, "{name}");
    }
    for other in ["<script", "http:", "https:", "src=", "url(", "@import"] {
        assert!(!page.contains(other), "{other}");
    }
}

#[test]
fn the_captures() {
    let files = ["ffmpeg", "gstreamer-avp", "gstreamer-rr", "ortp"];
    let files = files.map(|name| format!("samples/captures/{name}.hex"));
    let words: Vec<&str> = files.iter().map(String::as_str).collect();
    let (run, page) = page("captures.html", &words, b"");
    assert_complete(&page);
    assert!(page.contains("<b>449</b>datagrams"));
    // Three drawings for each of the 11 sources that somebody reports about.
    assert_eq!(page.matches("aria-label=\"fraction lost, %\"").count(), 11);
    assert_eq!(
        page.matches("aria-label=\"lost in all, packets\"").count(),
        11
    );
    assert_eq!(
        page.matches("aria-label=\"jitter, RTP timestamp units\"")
            .count(),
        11
    );
    assert!(page.contains("An SDES packet containing a CNAME item MUST be included"));
    assert!(page.contains("ffmpeg:24021&nbsp;(1)"));
    assert_eq!((run.err.as_str(), run.status), ("", 0));
}

/// A datagram of source 7 with a block about source 8 that has this loss.
fn losing(lost: i32) -> String {
    let bits = lost & 0xFF_FFFF;
    let block = format!("00000008{bits:08x}{}", "00".repeat(16));
    let name = "81ca0003000000070103614062000000";
    format!("81c9000700000007{block}{name}\n")
}

/// The drawing of the losses on the page of datagrams that have them.
fn loss_drawing(name: &str, losses: &[i32]) -> String {
    let input: String = losses.iter().map(|lost| losing(*lost)).collect();
    let (run, page) = page(name, &[], input.as_bytes());
    assert_complete(&page);
    assert_eq!((run.err.as_str(), run.status), ("", 0));
    let last = losses.last().expect("a loss");
    assert!(page.contains(&format!("<td class=\"number\">{last}</td>")));
    let (_, drawing) = page
        .split_once("aria-label=\"lost in all, packets\"")
        .expect("a drawing");
    drawing
        .split("</svg>")
        .next()
        .expect("a drawing's end")
        .into()
}

/// The drawing goes down to the lowest loss, and shows where 0 is.
#[test]
fn losses_below_zero() {
    let drawing = loss_drawing("below-zero.html", &[0, -1, 2]);
    assert!(drawing.contains("points=\"62.0,155.0 224.0,180.0 386.0,105.0\""));
    assert!(
        drawing.contains("<line class=\"axis\" x1=\"62\" x2=\"386\" y1=\"155.0\" y2=\"155.0\"/>")
    );
    for tick in -1..=5 {
        let label = format!("x=\"56\" y=\"{}.0\">{tick}</text>", 159 - 25 * tick);
        assert!(drawing.contains(&label), "{label}\n{drawing}");
    }
    assert!(drawing.contains("<title>00000007, 2: -1</title>"));

    let drawing = loss_drawing("lowest.html", &[0, -8_388_608]);
    assert!(drawing.contains("points=\"62.0,30.0 386.0,180.0\""));
    for tick in ["0", "-2.0 M", "-4.0 M", "-6.0 M", "-8.0 M"] {
        assert!(
            drawing.contains(&format!(">{tick}</text>")),
            "{tick}\n{drawing}"
        );
    }
    assert!(drawing.contains("<title>00000007, 2: -8.4 M</title>"));
}

#[test]
fn an_input_without_a_report() {
    for input in [&b""[..], b"# nothing\n", b"80C9000111223344\n"] {
        let (run, page) = page("nothing.html", &[], input);
        assert_complete(&page);
        assert!(page.contains("<p>No source is named in this input.</p>"));
        assert!(page.contains("so there is nothing to draw.</p>"));
        assert_eq!((run.err.as_str(), run.status), ("", 0));
    }
}

/// A name from the wire is no part of the page's own marks.
#[test]
fn names_with_marks() {
    let name = b"<script>&\"\x1B</td>";
    let mut item = vec![1, name.len() as u8];
    item.extend(name);
    item.resize((item.len() + 1).next_multiple_of(4), 0);
    let digits = |bytes: &[u8]| {
        bytes
            .iter()
            .map(|it| format!("{it:02x}"))
            .collect::<String>()
    };
    let block = format!("00000007{}", "00".repeat(20));
    let len = 1 + item.len() / 4;
    let hex = format!(
        "81c9000700000007{block}81ca{len:04x}00000007{}",
        digits(&item)
    );
    let (run, page) = page("marks.html", &[], format!("a<b>c\t{hex}").as_bytes());
    assert_complete(&page);
    let shown = "&lt;script&gt;&amp;\\&quot;\\u{1b}&lt;/td&gt;";
    assert_eq!(page.matches(shown).count(), 2, "{page}");
    assert!(page.contains(">a&lt;b&gt;c</td>"));
    assert_eq!((run.err.as_str(), run.status), ("", 0));
}

#[test]
fn a_page_that_cannot_be_written() {
    let run = run(&["--html", "no such folder/page.html"], b"");
    let start = "rtcpdump: no such folder/page.html: ";
    assert!(run.err.starts_with(start), "{}", run.err);
    assert_eq!(run.status, 1);
}
