//! The ways in which people write bytes.

use crate::{before_tables, run, PRINTED};

/// The text is one datagram, or so many.
fn is_read(text: &str, count: usize) {
    let run = run(&[], text.as_bytes());
    assert_eq!((run.err.as_str(), run.status), ("", 0), "{text}");
    assert_eq!(
        run.out.matches(PRINTED).count(),
        count,
        "{text}\n{}",
        run.out
    );
    let want = format!("summary\n  datagrams: {count}\n");
    assert!(run.out.contains(&want), "{text}\n{}", run.out);
}

#[test]
fn pairs_with_marks_between() {
    let pairs = [
        "80", "c9", "00", "01", "11", "22", "33", "44", "81", "CA", "00", "03", "11", "22", "33",
        "44", "01", "03", "61", "40", "62", "00", "00", "00",
    ];
    for (before, between, after) in [
        ("", "", ""),
        ("", " ", ""),
        ("", ":", ""),
        ("", "-", ""),
        ("0x", ", 0x", ""),
        ("{0x", ",0x", "};"),
        ("{ 0x", " ,0x", " };"),
        ("\"\\x", "\\x", "\""),
        ("[", ", ", "]"),
    ] {
        let text = format!("{before}{}{after}\n", pairs.join(between));
        is_read(&text, 1);
        is_read(&text.repeat(2), 2);
    }
    let lines: Vec<String> = pairs
        .chunks(8)
        .map(|it| format!("  0x{}", it.join(", 0x")))
        .collect();
    is_read(&lines.join(",\n"), 1);
    is_read(
        &format!("{}\n{}\n", lines.join(",\n"), lines.join(",\n")),
        2,
    );
}

const XXD: &str = "\
00000000: 80c9 0001 1122 3344 81ca 0003 1122 3344  .....\"3D.....\"3D
00000010: 0103 6140 6200 0000                      ..a@b...
";
const HEXDUMP_C: &str = "\
00000000  80 c9 00 01 11 22 33 44  81 ca 00 03 11 22 33 44  |.....\"3D.....\"3D|
00000010  01 03 61 40 62 00 00 00                           |..a@b...|
00000018
";
const HEXDUMP: &str = "\
0000000 c980 0100 2211 4433 ca81 0300 2211 4433
0000010 0301 4061 0062 0000
0000018
";
const OD: &str = "\
0000000 80 c9 00 01 11 22 33 44 81 ca 00 03 11 22 33 44
0000020 01 03 61 40 62 00 00 00
0000030
";
const OD_HEX: &str = "\
000000 80 c9 00 01 11 22 33 44 81 ca 00 03 11 22 33 44
000010 01 03 61 40 62 00 00 00
000018
";

#[test]
fn dumps() {
    for text in [XXD, HEXDUMP_C, HEXDUMP, OD, OD_HEX] {
        is_read(text, 1);
        is_read(&text.repeat(3), 3);
        is_read(&format!("{text}\n{text}"), 2);
        is_read(&text.replace('\n', "\r\n"), 1);
    }
    let mixed = [XXD, HEXDUMP, HEXDUMP_C, OD, OD_HEX, XXD].concat();
    is_read(&mixed, 6);
}

/// hexdump fills the last word of an odd number of bytes, and writes a star for
/// lines that repeat the one before.
#[test]
fn odd_lengths_and_stars() {
    for (text, want) in [
        ("0000000 c980 0100 0011\n0000005\n", "  bytes: 80c9000111\n"),
        ("00000000: 80c9 0001 11  .....\n", "  bytes: 80c9000111\n"),
        ("0000000 80 c9 00 01 11\n0000005\n", "  bytes: 80c9000111\n"),
    ] {
        let run = run(&[], text.as_bytes());
        assert!(run.out.contains(want), "{text}\n{}", run.out);
        assert_eq!((run.err.as_str(), run.status), ("", 0));
    }
    let zeros = "00 ".repeat(16);
    let hexdump = format!(
        "00000000  80 cc{}\n00000010  {zeros}\n*\n00000040\n",
        " 00".repeat(14)
    );
    let od = format!(
        "0000000 80 cc{}\n0000020 {zeros}\n*\n0000100\n",
        " 00".repeat(14)
    );
    let words = "0000 ".repeat(8);
    let hexdump_words = format!(
        "0000000 cc80 {}\n0000010 {words}\n*\n0000040 {words}\n",
        "0000 ".repeat(7)
    );
    let od_hex = od
        .replace("0000000 ", "000000 ")
        .replace("0000020 ", "000010 ");
    let od_hex = od_hex.replace("0000100", "000040");
    for (text, len) in [(hexdump, 64), (hexdump_words, 80), (od, 64), (od_hex, 64)] {
        let run = run(&[], text.as_bytes());
        let want = format!("  bytes: 80cc{}\n", "00".repeat(len - 2));
        assert!(run.out.contains(&want), "{text}\n{}", run.out);
    }
}

const TCPDUMP: &str = "\
20:07:37.000250 IP 192.0.2.1.5005 > 192.0.2.2.5007: UDP, length 24
\t0x0000:  4500 0034 0000 4000 4011 0000 c000 0201  E..4..@.@.......
\t0x0010:  c000 0202 138d 138f 0020 0000 80c9 0001  ................
\t0x0020:  1122 3344 81ca 0003 1122 3344 0103 6140  .\"3D.....\"3D..a@
\t0x0030:  6200 0000                                b...
";
const TCPDUMP_XX: &str = "\
20:07:37.000250 IP (tos 0x0, ttl 64, id 0, offset 0, flags [DF], proto UDP (17), length 52)
    192.0.2.1.5005 > 192.0.2.2.5007: [udp sum ok] UDP, length 24
\t0x0000:  0202 0202 0202 0202 0202 0202 0800 4500
\t0x0010:  0034 0000 4000 4011 0000 c000 0201 c000
\t0x0020:  0202 138d 138f 0020 0000 80c9 0001 1122
\t0x0030:  3344 81ca 0003 1122 3344 0103 6140 6200
\t0x0040:  0000
";

#[test]
fn packets_of_tcpdump() {
    is_read(TCPDUMP, 1);
    is_read(TCPDUMP_XX, 1);
    is_read(&[TCPDUMP, TCPDUMP_XX, TCPDUMP].concat(), 3);
    let run = run(&[], TCPDUMP.as_bytes());
    let want = "datagram 1: standard input line 2, 20:07:37.000250 IP 192.0.2.1.5005 > \
                192.0.2.2.5007: UDP, length 24, 192.0.2.1:5005 to 192.0.2.2:5007, 24 bytes\n";
    assert!(run.out.starts_with(want), "{}", run.out);
}

const TSHARK: &str = "\
0000  02 02 02 02 02 02 02 02 02 02 02 02 08 00 45 00   ..............E.
0010  00 34 00 00 40 00 40 11 00 00 c0 00 02 01 c0 00   .4..@.@.........
0020  02 02 13 8d 13 8f 00 20 00 00 80 c9 00 01 11 22   ....... .......\"
0030  33 44 81 ca 00 03 11 22 33 44 01 03 61 40 62 00   3D.....\"3D..a@b.
0040  00 00                                             ..
";

/// A frame of tshark -x, and the bytes of the datagram alone, which Wireshark
/// copies in the same way.
#[test]
fn frames_of_wireshark() {
    is_read(TSHARK, 1);
    is_read(&format!("{TSHARK}\n{TSHARK}"), 2);
    is_read(
        "0000   80 c9 00 01 11 22 33 44 81 ca 00 03 11 22 33 44\n\
         0010   01 03 61 40 62 00 00 00\n",
        1,
    );
}

/// RTP and TCP are passed over, as in a capture.
#[test]
fn other_packets_of_tcpdump() {
    let rtp = TCPDUMP.replacen("80c9", "8060", 1);
    let tcp = TCPDUMP.replacen("4011", "4006", 1);
    let run = run(&[], [rtp.as_str(), &tcp, TCPDUMP].concat().as_bytes());
    assert_eq!(run.out.matches(PRINTED).count(), 1);
    let want = "  records: 3\n    taken as RTCP: 1\n    other UDP datagrams: 1\n    not UDP: 1\n";
    assert!(before_tables(&run.out).ends_with(want), "{}", run.out);
    assert_eq!((run.err.as_str(), run.status), ("", 0));
}

/// A dump with a line missing is damaged, and loses none after it.
#[test]
fn a_dump_with_a_line_missing() {
    for text in [XXD, HEXDUMP_C, HEXDUMP, TCPDUMP] {
        let lines: Vec<&str> = text.lines().collect();
        let at = if text == TCPDUMP { 2 } else { 0 };
        let damaged = [&lines[..at], &lines[at + 1..]].concat().join("\n");
        let run = run(&[], format!("{text}\n{damaged}\n\n{text}").as_bytes());
        assert_eq!(
            run.out.matches(PRINTED).count(),
            2,
            "{damaged}\n{}",
            run.out
        );
        assert!(run.err.contains("offset"), "{}", run.err);
        assert_eq!(run.status, 1);
    }
}

/// A text that is none of these ends after a few lines; one that has a datagram
/// is read to its end.
#[test]
fn a_text_without_hex() {
    let text = "It was a dark and stormy night.\n".repeat(2000);
    let got = run(&[], text.as_bytes());
    assert_eq!(got.err.lines().count(), 6, "{}", got.err);
    let last = "rtcpdump: standard input: no pcap, pcapng or hex digits; the rest is not read\n";
    assert!(got.err.ends_with(last), "{}", got.err);
    assert_eq!(got.status, 1);
    let got = run(&[], format!("{XXD}{text}\n{XXD}").as_bytes());
    assert_eq!(got.out.matches(PRINTED).count(), 2);
    assert_eq!(got.err.lines().count(), 11, "{}", got.err);
    let last = "rtcpdump: standard input: 1990 more damaged places\n";
    assert!(got.err.ends_with(last), "{}", got.err);
}

#[test]
fn packed_files_name_what_unpacks_them() {
    for (start, program) in [
        (&b"\x1F\x8B\x08\x00"[..], "zcat"),
        (b"BZh9", "bzcat"),
        (b"\xFD7zXZ\0", "xzcat"),
        (b"\x28\xB5\x2F\xFD", "zstdcat"),
    ] {
        let run = run(&[], start);
        let want = format!("rtcpdump: standard input: packed: {program} FILE | rtcpdump\n");
        assert_eq!((run.err, run.status), (want, 1));
    }
}

#[test]
fn a_line_that_is_too_long() {
    let text = format!("{}\n{XXD}", "80".repeat(600_000));
    let run = run(&[], text.as_bytes());
    assert_eq!(run.err, "rtcpdump: standard input: line 1: too long\n");
    assert_eq!(run.out.matches(PRINTED).count(), 1);
}
