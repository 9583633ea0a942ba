//! Every field of every kind of packet.

use crate::{assert_same, before_tables, bytes, run, DATAGRAM};

/// What is printed of a datagram after its first line, without the summary.
fn printed(hex: &str) -> String {
    let run = run(&["--raw"], &bytes(hex));
    let (first, rest) = run.out.split_once('\n').expect("a first line");
    let len = bytes(hex).len();
    let plural = if len == 1 { "" } else { "s" };
    let want = format!("datagram 1: standard input, {len} byte{plural}");
    assert_eq!(first, want);
    assert_eq!((run.err.as_str(), run.status), ("", 0));
    rest.split("summary\n").next().expect("a part").into()
}

/// What is printed of packets after a report and a CNAME.
fn printed_after_a_name(hex: &str) -> String {
    let text = printed(&format!("{DATAGRAM} {hex}"));
    let (_, rest) = text.split_once("CNAME: \"a@b\"\n").expect("a CNAME");
    rest.into()
}

#[test]
fn a_sender_report() {
    let text = printed(
        "82 C8 00 13 00 00 00 01 EE A4 8F 89 D2 80 7B BB 00 00 0B 40 00 00 00 13 00 00 0B E0 \
         97 96 9B 44 05 00 00 0A 00 02 00 11 00 00 00 07 8D 64 DF 4F 00 01 80 00 \
         00 00 00 02 FF FF FF FF FF FF FF FF FF FF FF FF 00 00 00 00 FF FF FF FF \
         65 78 74 73 \
         81 CA 00 03 11 22 33 44 01 03 61 40 62 00 00 00",
    );
    let want = "  packet 1: sender report (SR), type 200, 80 bytes
    SSRC of sender: 00000001
    NTP timestamp: eea48f89.d2807bbb (2026-11-15 20:07:37.822 UTC)
    RTP timestamp: 2880
    sender's packet count: 19
    sender's octet count: 3040
    block 1 about SSRC 97969b44
      fraction lost: 5/256
      cumulative number of packets lost: 10
      extended highest sequence number received: 131089 (cycle 2, number 17)
      interarrival jitter: 7
      last SR: 8d64.df4f
      delay since last SR: 98304/65536 s (1.500 s)
    block 2 about SSRC 00000002
      fraction lost: 255/256
      cumulative number of packets lost: -1
      extended highest sequence number received: 4294967295 (cycle 65535, number 65535)
      interarrival jitter: 4294967295
      last SR: 0 (none received yet)
      delay since last SR: 4294967295/65536 s (65535.999 s)
    profile-specific extension: 4 bytes, 65787473
  packet 2: source description (SDES), type 202, 16 bytes
    chunk 1 of SSRC 11223344, 12 bytes
      CNAME: \"a@b\"
";
    assert_same(&text, want);
}

/// The NTP time of a sender report.
fn time(hex: &str) -> String {
    let text = printed(&format!(
        "80 C8 00 06 00 00 00 01 {hex} 00 00 00 02 00 00 00 03 00 00 00 04 \
         81 CA 00 03 11 22 33 44 01 03 61 40 62 00 00 00"
    ));
    let (_, rest) = text.split_once("NTP timestamp: ").expect("a time");
    rest.lines().next().expect("a line").into()
}

#[test]
fn times() {
    assert_eq!(
        time("00 00 00 00 00 00 00 00"),
        "0 (the sender has no clock)"
    );
    assert_eq!(
        time("00 00 00 0C 80 00 00 00"),
        "0000000c.80000000 (12.500 s of the sender's own clock)"
    );
    let dates = [
        (
            "80 00 00 00 00 00 00 00",
            "80000000.00000000 (1968-01-20 03:14:08.000 UTC)",
        ),
        (
            "83 AA 7E 7F FF FF FF FF",
            "83aa7e7f.ffffffff (1969-12-31 23:59:59.999 UTC)",
        ),
        (
            "83 AA 7E 80 00 00 00 00",
            "83aa7e80.00000000 (1970-01-01 00:00:00.000 UTC)",
        ),
        (
            "BC 65 8A 80 00 00 00 00",
            "bc658a80.00000000 (2000-02-29 00:00:00.000 UTC)",
        ),
        (
            "BC 66 DC 00 00 00 00 00",
            "bc66dc00.00000000 (2000-03-01 00:00:00.000 UTC)",
        ),
        (
            "EB 1F 03 FF 00 00 00 00",
            "eb1f03ff.00000000 (2024-12-31 23:59:59.000 UTC)",
        ),
        (
            "FF FF FF FF 00 00 00 00",
            "ffffffff.00000000 (2036-02-07 06:28:15.000 UTC)",
        ),
    ];
    for (hex, want) in dates {
        assert_eq!(time(hex), want);
    }
}

#[test]
fn a_receiver_report_with_padding_only_on_the_last_packet() {
    let text = printed_after_a_name(
        "A1 C9 00 0A 00 00 00 09 \
         00 00 00 01 00 00 00 01 00 00 00 02 00 00 00 03 00 00 00 04 00 00 00 05 \
         65 78 74 73 01 02 03 00 00 00 00 08",
    );
    let want = "  packet 3: receiver report (RR), type 201, 44 bytes
    SSRC of sender: 00000009
    block 1 about SSRC 00000001
      fraction lost: 0/256
      cumulative number of packets lost: 1
      extended highest sequence number received: 2 (cycle 0, number 2)
      interarrival jitter: 3
      last SR: 0000.0004
      delay since last SR: 5/65536 s (0.000 s)
    profile-specific extension: 4 bytes, 65787473
    padding: 8 bytes, 0102030000000008
";
    assert_same(&text, want);
}

#[test]
fn every_item_and_text_that_is_no_text() {
    let text = printed_after_a_name(
        "83 CA 00 10 \
         00 00 00 05 02 01 4E 03 01 45 04 01 50 05 01 4C 06 01 54 07 01 4F 00 00 \
         00 00 00 06 08 06 03 61 22 0A 64 C3 09 02 C3 A9 FF 00 01 00 00 00 00 00 \
         00 00 00 07 07 06 1B 5B 5C E2 80 AE 00 00 00 00",
    );
    let want = r#"  packet 3: source description (SDES), type 202, 68 bytes
    chunk 1 of SSRC 00000005, 24 bytes
      NAME: "N"
      EMAIL: "E"
      PHONE: "P"
      LOC: "L"
      TOOL: "T"
      NOTE: "O"
    chunk 2 of SSRC 00000006, 24 bytes
      PRIV, prefix "a\"\n": "d\xc3"
      item type 9: "é"
      item type 255: ""
      CNAME: ""
    chunk 3 of SSRC 00000007, 16 bytes
      NOTE: "\u{1b}[\\\u{202e}"
"#;
    assert_same(&text, want);
}

#[test]
fn a_bye_with_a_reason_and_what_follows_it() {
    let text = printed_after_a_name(
        "82 CB 00 04 00 00 00 05 00 00 00 06 02 62 79 74 61 69 6C 00 \
         80 CB 00 00 81 CB 00 02 00 00 00 07 00 00 00 00",
    );
    let want = "  packet 3: goodbye (BYE), type 203, 20 bytes
    source 1: SSRC 00000005
    source 2: SSRC 00000006
    reason: \"by\"
    after the reason: 5 bytes, 7461696c00
  packet 4: goodbye (BYE), type 203, 4 bytes
  packet 5: goodbye (BYE), type 203, 12 bytes
    source 1: SSRC 00000007
    reason: \"\"
    after the reason: 3 bytes, 000000
";
    assert_same(&text, want);
}

#[test]
fn app_and_other_types() {
    let text = printed_after_a_name(
        "85 CC 00 03 00 00 00 07 6E 61 6D 00 64 61 74 61 \
         80 CC 00 02 00 00 00 08 6E 6F 6E 65 \
         81 CD 00 01 6E 61 63 6B 80 CE 00 00 80 CF 00 00 9F FF 00 00 \
         A1 D0 00 02 62 6F 64 79 00 00 00 04",
    );
    let want = "  packet 3: application-defined (APP), type 204, 16 bytes
    subtype: 5
    SSRC: 00000007
    name: \"nam\\0\"
    data: 4 bytes, 64617461
  packet 4: application-defined (APP), type 204, 12 bytes
    subtype: 0
    SSRC: 00000008
    name: \"none\"
  packet 5: transport layer feedback (RFC 4585), type 205, 8 bytes
    low 5 bits: 1
    body: 4 bytes, 6e61636b
  packet 6: payload-specific feedback (RFC 4585), type 206, 4 bytes
    low 5 bits: 0
  packet 7: extended report (RFC 3611), type 207, 4 bytes
    low 5 bits: 0
  packet 8: another type, type 255, 4 bytes
    low 5 bits: 31
  packet 9: another type, type 208, 12 bytes
    low 5 bits: 1
    body: 4 bytes, 626f6479
    padding: 4 bytes, 00000004
";
    assert_same(&text, want);
}

#[test]
fn long_bytes_are_cut_and_counted() {
    let data = "AB ".repeat(300);
    let text = printed_after_a_name(&format!("80 CC 00 4D 00 00 00 07 6E 61 6D 65 {data}"));
    let (_, line) = text.split_once("data: ").expect("data");
    let want = format!("300 bytes, {} and 44 bytes more\n", "ab".repeat(256));
    assert_eq!(line, want);
}

#[test]
fn the_summary_counts_each_kind() {
    let sr = "80 C8 00 06 00 00 00 01 00 00 00 00 00 00 00 00 00 00 00 02 00 00 00 03 00 00 00 04";
    let app = "80 CC 00 02 00 00 00 08 6E 6F 6E 65";
    let parts = [
        sr.into(),
        "80 C9 00 01 00 00 00 01 ".repeat(2),
        "81 CA 00 02 00 00 00 01 01 01 61 00 ".repeat(3),
        "80 CB 00 00 ".repeat(4),
        format!("{app} ").repeat(5),
        "80 CD 00 00 ".repeat(6),
    ];
    let run = run(&["--raw", "--summary"], &bytes(&parts.join(" ")));
    let want = "summary
  datagrams: 1
    read: 1
    refused: 0
  packets: 21
    SR: 1
    RR: 2
    SDES: 3
    BYE: 4
    APP: 5
    other types: 6
";
    assert_same(before_tables(&run.out), want);
}
