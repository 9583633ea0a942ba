//! The table of sources, the refusals by sender, and the shorter ways to print.

use crate::capture::{frame, named, pcap, record, udp, v4, Order};
use crate::{assert_same, before_tables, bytes, run, DATAGRAM};

/// A name for the source of a report.
fn name(ssrc: u32) -> Vec<u8> {
    named(ssrc)[8..].to_vec()
}

/// A sender report, whose NTP timestamp has this middle, and its name.
fn sender(ssrc: u32, middle: u32) -> Vec<u8> {
    let ntp = (u64::from(middle) << 16).to_be_bytes();
    let start = [&b"\x80\xC8\0\x06"[..], &ssrc.to_be_bytes(), &ntp, &[0; 12]];
    [start.concat(), name(ssrc)].concat()
}

/// A receiver report with one block, and its name.
fn receiver(ssrc: u32, about: u32, numbers: [u32; 5]) -> Vec<u8> {
    let numbers = numbers.map(u32::to_be_bytes).concat();
    let start = [
        &b"\x81\xC9\0\x07"[..],
        &ssrc.to_be_bytes(),
        &about.to_be_bytes(),
    ];
    [start.concat(), numbers, name(ssrc)].concat()
}

/// Source 1 reports; source 2 answers 100 ms later and says that it held the
/// report for 62.5 ms; source 3 answers a report that is not in the capture.
fn conversation() -> Vec<u8> {
    let at = |microseconds, datagram: &[u8]| record(Order::Little, microseconds, &frame(datagram));
    [
        pcap(Order::Little, 101),
        at(0, &sender(1, 0xAABB_CCDD)),
        at(
            100_000,
            &receiver(2, 1, [0x0500_000A, 17, 7, 0xAABB_CCDD, 4096]),
        ),
        at(
            200_000,
            &receiver(3, 1, [0x0000_0000, 18, 9, 0x1111_1111, 4096]),
        ),
        at(300_000, &receiver(2, 1, [0x0700_000C, 19, 8, 0, 0])),
        at(400_000, &bytes("80 C9 00 01 00 00 00 04")),
        at(500_000, &bytes("80 C9 00 01 00 00 00 04")),
    ]
    .concat()
}

#[test]
fn last_values_and_the_round_trip() {
    let run = run(&["--summary"], &conversation());
    let tables = &run.out[before_tables(&run.out).len()..];
    let want = "\
sources
      SSRC  SR  RR  reporter  blocks  fraction  lost  jitter  round trip  CNAME, from
  00000001   1   0  00000002       2     7/256    12       8   37.500 ms  \"a@b\", 192.0.2.1:5005
                    00000003       1     0/256     0       9           -
  00000002   0   2         -       -         -     -       -           -  \"a@b\", 192.0.2.1:5005
  00000003   0   1         -       -         -     -       -           -  \"a@b\", 192.0.2.1:5005
refusals
  refusal 8, a datagram in which no SDES chunk has a CNAME: 2
    from 192.0.2.1:5005: 2
";
    assert_same(tables, want);
    assert_eq!((run.err.as_str(), run.status), ("", 0));
}

/// Sources 2, 3 and 4 report losses of -1, -8,388,608 and 8,388,607 from source 1.
fn duplicates() -> Vec<u8> {
    let at = |microseconds, datagram: &[u8]| record(Order::Little, microseconds, &frame(datagram));
    [
        pcap(Order::Little, 101),
        at(0, &receiver(2, 1, [0x00FF_FFFF, 17, 7, 0, 0])),
        at(100_000, &receiver(3, 1, [0x0780_0000, 18, 9, 0, 0])),
        at(200_000, &receiver(4, 1, [0x007F_FFFF, 19, 8, 0, 0])),
    ]
    .concat()
}

#[test]
fn losses_below_zero() {
    let table = run(&["--summary"], &duplicates());
    let want = "\
sources
      SSRC  SR  RR  reporter  blocks  fraction      lost  jitter  round trip  CNAME, from
  00000001   0   0  00000002       1     0/256        -1       7           -  -
                    00000003       1     7/256  -8388608       9           -
                    00000004       1     0/256   8388607       8           -
  00000002   0   1         -       -         -         -       -           -  \"a@b\", 192.0.2.1:5005
  00000003   0   1         -       -         -         -       -           -  \"a@b\", 192.0.2.1:5005
  00000004   0   1         -       -         -         -       -           -  \"a@b\", 192.0.2.1:5005
";
    assert_same(&table.out[before_tables(&table.out).len()..], want);
    let fields = run(&[], &duplicates()).out;
    let brief = run(&["--brief"], &duplicates()).out;
    let json = run(&["--json"], &duplicates()).out;
    for lost in [-1, -8_388_608, 8_388_607] {
        let field = format!("      cumulative number of packets lost: {lost}\n");
        assert_eq!(fields.matches(&field).count(), 1, "{fields}");
        let word = format!("/256, lost {lost}, jitter ");
        assert_eq!(brief.matches(&word).count(), 1, "{brief}");
        // In the datagram, and in the summary.
        let field = format!("\"cumulative_lost\":{lost},");
        assert_eq!(json.matches(&field).count(), 2, "{json}");
    }
}

#[test]
fn one_line_a_packet() {
    let run = run(&["--brief"], &conversation());
    let start = "2026-11-15 20:07:37";
    let ports = "UTC 192.0.2.1:5005 > 192.0.2.2:5007";
    let want = format!(
        "1 {start}.000000000 {ports} SR 00000001, packets 0, octets 0\n\
         1 {start}.000000000 {ports} SDES 00000001 CNAME \"a@b\"\n\
         2 {start}.100000000 {ports} RR 00000002, about 00000001: fraction 5/256, lost 10, jitter 7\n\
         2 {start}.100000000 {ports} SDES 00000002 CNAME \"a@b\"\n"
    );
    assert!(run.out.starts_with(&want), "{}", run.out);
    let want = format!(
        "\n5 {start}.400000000 {ports} RR 00000004\n5 {start}.400000000 {ports} refused: a \
         datagram in which no SDES chunk has a CNAME (refusal 8)\n"
    );
    assert!(run.out.contains(&want), "{}", run.out);
}

#[test]
fn every_kind_of_packet_in_one_line() {
    let hex = format!(
        "{DATAGRAM} 82 CB 00 03 00 00 00 05 00 00 00 06 02 62 79 00 \
         85 CC 00 03 00 00 00 07 6E 61 6D 65 64 61 74 61 81 CD 00 01 6E 61 63 6B"
    );
    let run = run(&["--raw", "--brief"], &bytes(&hex));
    let want = "1 RR 11223344\n1 SDES 11223344 CNAME \"a@b\"\n1 BYE 00000005 00000006, reason \
                \"by\"\n1 APP 00000007, name \"name\", subtype 5, 4 bytes\n1 type 205, low 5 bits \
                1, 4 bytes\nsummary\n";
    assert!(run.out.starts_with(want), "{}", run.out);
}

/// Datagrams in which a source stands in any place, refused ones too.
#[test]
fn the_datagrams_of_a_source() {
    let numbers = |out: &str| {
        let lines = out
            .lines()
            .filter_map(|line| line.strip_prefix("datagram "));
        let number = |line: &str| line.split(':').next().unwrap_or("").parse().unwrap_or(0);
        lines.map(number).collect::<Vec<u32>>()
    };
    for (ssrc, want) in [
        ("00000001", &[1, 2, 3, 4][..]),
        ("2", &[2, 4]),
        ("0x00000003", &[3]),
        ("4", &[5, 6]),
        ("5", &[]),
    ] {
        let run = run(&["--ssrc", ssrc], &conversation());
        assert_eq!(numbers(&run.out), want, "{ssrc}");
        assert!(run.out.contains("\n  datagrams: 6\n"));
        let sources = run.out.matches("\"a@b\", 192.0.2.1:5005\n").count();
        assert_eq!(
            sources,
            usize::from(want.len() != 2 || ssrc == "2") * usize::from(ssrc != "5")
        );
    }
    let all = [
        format!("{DATAGRAM} 81 CB 00 01 00 00 00 05"),
        format!("{DATAGRAM} 80 CC 00 02 00 00 00 06 6E 61 6D 65"),
        format!("{DATAGRAM} 81 CD 00 02 00 00 00 07 00 00 00 08"),
        format!("{DATAGRAM} 81 CB 00 02 00 00 00 09 FF 00 00 00"),
    ];
    for (ssrc, want) in [("5", 1), ("6", 2), ("7", 3), ("8", 3), ("9", 4)] {
        let run = run(&["--ssrc", ssrc], all.join("\n").as_bytes());
        assert_eq!(numbers(&run.out), [want]);
    }
    let run = run(&["--ssrc", "1", "--first", "2"], &conversation());
    assert_eq!(numbers(&run.out), [1, 2]);
}

/// Fragments in any order are put together, of several datagrams at once; what
/// misses a part is counted.
#[test]
fn fragments_of_ipv4() {
    let of = |id, ssrc| {
        let whole = udp(&named(ssrc));
        [
            v4(id, 0x2000, &whole[..8]),
            v4(id, 0x2001, &whole[8..24]),
            v4(id, 0x0003, &whole[24..]),
        ]
    };
    let ([a, b, c], [d, e, f], [g, h, _]) = (of(1, 1), of(2, 2), of(3, 3));
    let frames = [c, f, g, a.clone(), a, e, b, h, d];
    let records = frames.map(|it| record(Order::Big, 0, &it)).concat();
    let run = run(&[], &[pcap(Order::Big, 101), records].concat());
    assert_eq!(run.out.matches("CNAME: \"a@b\"\n").count(), 2);
    let want = "  records: 9\n    taken as RTCP: 2\n    fragments: 9\n    \
                fragments put together: 6\n    datagrams of them: 2\n";
    assert!(before_tables(&run.out).ends_with(want), "{}", run.out);
    assert_eq!((run.err.as_str(), run.status), ("", 0));
}

#[test]
fn fragments_of_ipv6() {
    let whole = udp(&named(1));
    let part = |word: u16, data: &[u8]| {
        let word = word.to_be_bytes();
        let header = [17, 0, word[0], word[1], 0, 0, 0, 9];
        crate::capture::v6(44, &[&header[..], data].concat())
    };
    let frames = [part(16, &whole[16..]), part(1, &whole[..16])];
    let records = frames.map(|it| record(Order::Big, 0, &it)).concat();
    let run = run(&[], &[pcap(Order::Big, 101), records].concat());
    assert_eq!(run.out.matches("CNAME: \"a@b\"\n").count(), 1);
    let want = "  records: 2\n    taken as RTCP: 1\n    fragments: 2\n    \
                fragments put together: 2\n    datagrams of them: 1\n";
    assert!(before_tables(&run.out).ends_with(want), "{}", run.out);
}
