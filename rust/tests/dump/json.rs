//! The lines of `--json`.

use crate::{bytes, root, run, DATAGRAM};

/// Reads one JSON value and gives what follows it; none where it is no JSON.
fn value(text: &str) -> Option<&str> {
    match text.as_bytes().first()? {
        b'{' => list(&text[1..], '}', |text| {
            value(string(text)?.strip_prefix(':')?)
        }),
        b'[' => list(&text[1..], ']', value),
        b'"' => string(text),
        _ => {
            let words = ["null", "true", "false"];
            if let Some(rest) = words.iter().find_map(|word| text.strip_prefix(word)) {
                return Some(rest);
            }
            let end = text.find([',', ']', '}']).unwrap_or(text.len());
            text[..end].parse::<f64>().ok()?;
            Some(&text[end..])
        }
    }
}

fn list(text: &str, end: char, element: impl Fn(&str) -> Option<&str>) -> Option<&str> {
    if let Some(rest) = text.strip_prefix(end) {
        return Some(rest);
    }
    let mut rest = element(text)?;
    while let Some(more) = rest.strip_prefix(',') {
        rest = element(more)?;
    }
    rest.strip_prefix(end)
}

fn string(text: &str) -> Option<&str> {
    let mut characters = text.strip_prefix('"')?.chars();
    loop {
        match characters.next()? {
            '"' => return Some(characters.as_str()),
            '\0'..='\x1F' => return None,
            '\\' => match characters.next()? {
                '"' | '\\' | '/' | 'b' | 'f' | 'n' | 'r' | 't' => (),
                'u' => {
                    let rest = characters.as_str();
                    u16::from_str_radix(rest.get(..4)?, 16).ok()?;
                    characters = rest[4..].chars();
                }
                _ => return None,
            },
            _ => (),
        }
    }
}

/// Every line is one object.
fn assert_json(out: &str) {
    for line in out.lines() {
        assert_eq!(
            (line.as_bytes()[0], value(line)),
            (b'{', Some("")),
            "{line}"
        );
    }
}

#[test]
fn every_line_of_the_captures_is_an_object() {
    for name in ["ffmpeg", "gstreamer-avp", "gstreamer-rr", "ortp"] {
        let file = format!("samples/captures/{name}.hex");
        let text = std::fs::read_to_string(root().join(&file)).expect("datagrams");
        let run = run(&["--json", &file], b"");
        assert_json(&run.out);
        assert_eq!(run.out.lines().count(), text.lines().count() + 1);
        assert_eq!((run.err.as_str(), run.status), ("", 0));
    }
}

/// Names of fields with the values that they have in a datagram of all kinds.
const FIELDS: &str = r#"
"kind":"SR","type":200,"count":1,"length":56,"ssrc":"00000001","ntp_timestamp":"eea48f89d2807bbb","rtp_timestamp":2880,"packet_count":19,"octet_count":3040
"blocks":[{"ssrc":"97969b44","fraction_lost":5,"cumulative_lost":10,"extended_sequence_number":131089,"interarrival_jitter":7,"last_sr":"8d64df4f","delay_since_last_sr":98304}],"extension":"65787473","padding":""}
"kind":"RR","type":201,"count":0,"length":8,"ssrc":"11223344","blocks":[],"extension":"","padding":""}
"kind":"SDES","type":202,"count":1,"length":16,"chunks":[{"ssrc":"11223344","length":12,"items":[{"type":1,"name":"CNAME","value":{"text":"a@b","hex":"614062"}}]}],"padding":""}
{"type":8,"name":"PRIV","prefix":{"text":"p\"\n","hex":"70220a"},"value":{"text":"d\ufffd","hex":"64c3"}},{"type":9,"name":null,"value":{"text":"","hex":""}}
"kind":"BYE","type":203,"count":2,"length":20,"sources":["00000005","00000006"],"reason":{"text":"by","hex":"6279"},"tail":"7461696c00","padding":""}
"kind":"BYE","type":203,"count":0,"length":4,"sources":[],"reason":null,"tail":"","padding":""}
"kind":"APP","type":204,"count":5,"length":16,"subtype":5,"ssrc":"00000007","name":{"text":"name","hex":"6e616d65"},"data":"64617461","padding":""}
"kind":"other","type":205,"count":1,"length":12,"body":"6e61636b","padding":"00000004"}
"#;

#[test]
fn every_field() {
    let hex = format!(
        "81 C8 00 0D 00 00 00 01 EE A4 8F 89 D2 80 7B BB 00 00 0B 40 00 00 00 13 00 00 0B E0 \
         97 96 9B 44 05 00 00 0A 00 02 00 11 00 00 00 07 8D 64 DF 4F 00 01 80 00 65 78 74 73 \
         {DATAGRAM} 81 CA 00 04 00 00 00 06 08 06 03 70 22 0A 64 C3 09 00 00 00 \
         82 CB 00 04 00 00 00 05 00 00 00 06 02 62 79 74 61 69 6C 00 80 CB 00 00 \
         85 CC 00 03 00 00 00 07 6E 61 6D 65 64 61 74 61 A1 CD 00 02 6E 61 63 6B 00 00 00 04"
    );
    let run = run(&["--raw", "--json"], &bytes(&hex));
    assert_json(&run.out);
    let out = run
        .out
        .replace('\u{FFFD}', "\\ufffd")
        .replace("\\u000a", "\\n");
    for field in FIELDS.lines() {
        assert!(out.contains(field), "{field}\n{out}");
    }
}

/// The names of the fields are those that the documentation has.
#[test]
fn the_documentation_names_each_field() {
    let page = std::fs::read_to_string(root().join("docs/RTCPDUMP.md")).expect("the page");
    let refused = "81 CB 00 00\n";
    let run = run(&["--json"], format!("zz\n{DATAGRAM}\n{refused}").as_bytes());
    assert_eq!(run.status, 1);
    assert_json(&run.out);
    for text in [&run.out, FIELDS] {
        for (at, _) in text.match_indices("\":") {
            let name = text[..at].rsplit('"').next().expect("a name");
            assert!(page.contains(&format!("`{name}`")), "{name}");
        }
    }
}

#[test]
fn texts_from_the_wire_are_escaped() {
    let hex = "80 C9 00 01 11 22 33 44 81 CA 00 05 11 22 33 44 01 0B 22 5C 0A 1B 7F E2 80 AE C2 \
               85 FF 00 00 00";
    let run = run(&["--raw", "--json"], &bytes(hex));
    assert_json(&run.out);
    let want = "\"text\":\"\\\"\\\\\\u000a\\u001b\\u007f\\u202e\\u0085\u{FFFD}\"";
    assert!(run.out.contains(want), "{}", run.out);
}
