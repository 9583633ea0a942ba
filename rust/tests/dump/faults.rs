//! Refused datagrams: the packets before the fault, where it is, the sentence
//! that it breaks, and all bytes.

use crate::{assert_same, bytes, root, run, DATAGRAM, PRINTED};
use bokyjave::Compound;

/// What is printed of a datagram after its first line, without the summary.
fn printed(hex: &str) -> String {
    let run = run(&["--raw"], &bytes(hex));
    assert_eq!((run.err.as_str(), run.status), ("", 0));
    let (_, rest) = run.out.split_once('\n').expect("a first line");
    rest.split("summary\n").next().expect("a part").into()
}

/// The packet that fails, its offset, the place of the fault in the datagram,
/// and a part of the text: for datagrams after [`DATAGRAM`].
const AFTER: [(&str, usize, &str); 20] = [
    (
        "40 C9 00 01 00 00 00 01",
        0,
        "whose first two bits are not 2 (refusal 1: version 1)",
    ),
    (
        "80 C9",
        2,
        "ends inside the header of a packet (refusal 2: bytes needed 4, bytes there 2)",
    ),
    (
        "80 C9 00 02 00 00 00 01",
        2,
        "says more bytes than the datagram has (refusal 2: ",
    ),
    (
        "80 C9 00 00",
        2,
        "says fewer bytes than its type needs (refusal 2: bytes needed 8",
    ),
    (
        "80 C8 00 01 00 00 00 01",
        2,
        "says fewer bytes than its type needs (refusal 2: ",
    ),
    (
        "80 CC 00 01 00 00 00 01",
        2,
        "says fewer bytes than its type needs (refusal 2: ",
    ),
    (
        "81 C9 00 01 00 00 00 01",
        0,
        "counts more blocks than it has (refusal 2: bytes needed 32",
    ),
    (
        "82 CB 00 01 00 00 00 01",
        0,
        "counts more sources than it has (refusal 2: ",
    ),
    (
        "81 CB 00 02 00 00 00 01 05 62 79 65",
        8,
        "reason is longer than the packet (refusal 2: ",
    ),
    (
        "81 CA 00 00",
        0,
        "counts more chunks than it has (refusal 2: bytes needed 4, bytes there 0",
    ),
    (
        "81 CA 00 01 00 00 00 01",
        8,
        "ends without a closing zero (refusal 2: ",
    ),
    (
        "81 CA 00 02 00 00 00 01 01 02 61 62",
        12,
        "ends without a closing zero (refusal 2: ",
    ),
    (
        "81 CA 00 02 00 00 00 01 00 00 00 09",
        11,
        "between its closing zero and the word boundary",
    ),
    (
        "81 CA 00 02 00 00 00 01 01 01 61 09",
        12,
        "only the type is there (refusal 2: ",
    ),
    (
        "81 CA 00 02 00 00 00 01 01 09 61 00",
        9,
        "longer than its packet (refusal 2: ",
    ),
    (
        "81 CA 00 02 00 00 00 01 08 00 00 00",
        9,
        "without the length of its prefix (refusal 2: ",
    ),
    (
        "81 CA 00 02 00 00 00 01 08 01 05 00",
        10,
        "prefix is longer than the item (refusal 5: ",
    ),
    (
        "80 CA 00 01 00 00 00 01",
        4,
        "with bytes after its chunks (refusal 3: bytes stated 4, ",
    ),
    (
        "A0 CE 00 01 00 00 00 02",
        7,
        "padding count is no multiple of 4 (refusal 4)",
    ),
    (
        "A0 CE 00 01 00 00 00 08",
        7,
        "padding count is more than the packet has (refusal 4)",
    ),
];

#[test]
fn the_fault_of_the_third_packet() {
    for (hex, at, text) in AFTER {
        let all = format!("{DATAGRAM} {hex}");
        let got = printed(&all);
        let refused = got.strip_prefix(PRINTED).unwrap_or_else(|| panic!("{got}"));
        let lines: Vec<&str> = refused.lines().collect();
        let [first, packet, fault, rule, data] = lines[..] else {
            panic!("{refused}");
        };
        assert!(
            first.starts_with("  refused: ") && first.contains(text),
            "{first}"
        );
        let type_ = bytes(hex)[1];
        let want = format!("    packet 3, type {type_}, at offset 24 of the datagram");
        assert_eq!(packet, want);
        let value = match bytes(hex).get(at) {
            Some(byte) => format!("byte {at} of the packet, which is {byte:02x}"),
            None => "its end".into(),
        };
        let want = format!("    fault at offset {} of the datagram: {value}", 24 + at);
        assert_eq!(fault, want);
        assert!(rule.starts_with("    RFC 3550 6."), "{rule}");
        let joined: String = bytes(&all).iter().map(|it| format!("{it:02x}")).collect();
        assert_eq!(data, format!("  bytes: {joined}"));
    }
}

/// The bytes that are printed, given back, are refused in the same words.
#[test]
fn the_bytes_can_be_given_back() {
    let data = "AB ".repeat(900);
    let long = format!("80 CC 00 E4 00 00 00 07 6E 61 6D 65 {data} 80");
    let got = printed(&format!("{DATAGRAM} {long}"));
    let (_, hex) = got.split_once("  bytes: ").expect("bytes");
    let again = run(&[], hex.as_bytes()).out;
    let (_, again) = again.split_once('\n').expect("a first line");
    assert_same(again.split("summary\n").next().expect("a part"), &got);
}

#[test]
fn the_first_packet_padding_and_names() {
    let text = printed("81 CA 00 03 11 22 33 44 01 03 61 40 62 00 00 00");
    let want = "  refused: a datagram that does not begin with SR or RR (refusal 7: type 202)
    packet 1, type 202, at offset 0 of the datagram
    fault at offset 1 of the datagram: byte 1 of the packet, which is ca
";
    assert!(text.starts_with(want), "{text}");
    let text = printed(&format!("A0 C9 00 02 00 00 00 01 00 00 00 04 {DATAGRAM}"));
    let want = "  refused: a datagram in which a packet before the last is padded (refusal 9)
    packet 1, type 201, at offset 0 of the datagram
    fault at offset 0 of the datagram: byte 0 of the packet, which is a0
";
    assert!(text.starts_with(want), "{text}");
    let text = printed("80 C9 00 01 11 22 33 44");
    let want = "  packet 1: receiver report (RR), type 201, 8 bytes
    SSRC of sender: 11223344
  refused: a datagram in which no SDES chunk has a CNAME (refusal 8)
    RFC 3550 6.1: \"An SDES packet containing a CNAME item MUST be included in each compound RTCP \
                packet, except as noted in Section 9.1.\"
  bytes: 80c9000111223344
";
    assert_same(&text, want);
    let text = printed("A0 C9 00 01 11 22 33 00");
    assert!(
        text.contains("the padding bit and a padding count of 0"),
        "{text}"
    );
}

/// A packet of another type before the fault is shown with its fields too.
#[test]
fn packets_of_other_types_before_the_fault() {
    let text = printed(&format!("{DATAGRAM} 81 CD 00 01 6E 61 63 6B 40 C9 00 00"));
    let want = "  packet 3: transport layer feedback (RFC 4585), type 205, 8 bytes
    low 5 bits: 1
    body: 4 bytes, 6e61636b
  refused: a packet whose first two bits are not 2 (refusal 1: version 1)
    packet 4, type 201, at offset 32 of the datagram
";
    assert!(text.contains(want), "{text}");
}

/// Each sentence that is printed is quoted in docs/REFUSALS.md.
#[test]
fn the_sentences_are_those_of_the_page() {
    let page = std::fs::read_to_string(root().join("docs/REFUSALS.md")).expect("the page");
    let words = page.split_whitespace().filter(|word| *word != ">");
    let page = words.collect::<Vec<&str>>().join(" ");
    let datagrams = AFTER.map(|(hex, _, _)| format!("{DATAGRAM} {hex}"));
    let others = [
        "80 C9 00 01 11 22 33 44",
        "80 CB 00 00",
        "A0 CB 00 00 80 C9 00 00",
    ];
    for hex in datagrams.into_iter().chain(others.map(String::from)) {
        let text = printed(&hex);
        let (_, rule) = text.split_once("    RFC 3550 ").expect("a rule");
        let (_, sentence) = rule.split_once(": \"").expect("a sentence");
        let (sentence, _) = sentence.split_once("\"\n").expect("its end");
        assert!(page.contains(sentence), "{sentence}");
    }
}

/// The value of a field of a JSON line, as it is written there.
fn field<'a>(line: &'a str, name: &str) -> &'a str {
    let (_, rest) = line.split_once(&format!("\"{name}\":")).expect("a field");
    &rest[..rest.find([',', '}']).expect("an end")]
}

/// Datagrams damaged at random: the packets before the fault are accepted, and
/// what starts with the packet that is named gets the same refusal.
#[test]
fn the_packet_that_is_named_is_the_one_that_fails() {
    let start = bytes(DATAGRAM);
    let packets = AFTER.map(|(hex, _, _)| bytes(hex));
    let mut seed = 0x2545_F491_4F6C_DD1D_u64;
    let mut below = |end: usize| {
        seed ^= seed << 13;
        seed ^= seed >> 7;
        seed ^= seed << 17;
        (seed % end as u64) as usize
    };
    let mut datagrams = Vec::new();
    for _ in 0..4000 {
        let mut data = start.clone();
        for _ in 0..below(4) {
            data.extend(&start[..if below(2) == 0 { 8 } else { 24 }]);
        }
        data.extend(&packets[below(packets.len())]);
        for _ in 0..below(3) {
            let at = below(data.len());
            data[at] = below(256) as u8;
        }
        datagrams.push(data);
    }
    let hex = |data: &Vec<u8>| {
        data.iter()
            .map(|it| format!("{it:02x}"))
            .collect::<String>()
    };
    let lines: Vec<String> = datagrams.iter().map(hex).collect();
    let out = run(&["--json"], lines.join("\n").as_bytes()).out;
    assert_eq!(out.lines().count(), datagrams.len() + 1);
    for (line, data) in out.lines().zip(&datagrams) {
        is_at_fault(line, data);
    }
}

fn is_at_fault(line: &str, data: &[u8]) {
    let start = bytes(DATAGRAM);
    let Err(error) = Compound::parse(data) else {
        return assert!(line.ends_with("\"refusal\":null}"), "{line}");
    };
    let refusal = line.split_once("\"refusal\":").expect("a refusal").1;
    assert_eq!(field(refusal, "number"), error.number().to_string());
    if error.number() == 8 {
        return assert_eq!(field(refusal, "packet"), "null");
    }
    let number = |name| field(refusal, name).parse::<usize>().expect("a number");
    let (offset, fault) = (number("packet_offset"), number("fault_offset"));
    assert!(offset <= fault && fault <= data.len(), "{line}");
    let before = [&start[..], &data[..offset]].concat();
    let count = Compound::parse(&before).expect("packets").n_packets() - 2;
    assert_eq!(number("packet"), count + 1);
    let alone = [&start[..], &data[offset..]].concat();
    match error.number() {
        7 => assert_eq!(offset, 0),
        _ => assert_eq!(Compound::parse(&alone).expect_err("a refusal"), error),
    }
}
