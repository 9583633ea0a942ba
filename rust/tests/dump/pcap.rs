//! pcap files, made here byte by byte.

use crate::{assert_same, before_tables, bytes, run, Run, DATAGRAM, PRINTED};

/// The header of a file in either byte order, of version 2.4 and snap length 65,535.
const BIG_MICROSECONDS: &str = "A1 B2 C3 D4 00 02 00 04 00 00 00 00 00 00 00 00 00 00 FF FF";
const BIG_NANOSECONDS: &str = "A1 B2 3C 4D 00 02 00 04 00 00 00 00 00 00 00 00 00 00 FF FF";
const LITTLE_MICROSECONDS: &str = "D4 C3 B2 A1 02 00 04 00 00 00 00 00 00 00 00 00 FF FF 00 00";
const LITTLE_NANOSECONDS: &str = "4D 3C B2 A1 02 00 04 00 00 00 00 00 00 00 00 00 FF FF 00 00";

/// From 192.0.2.1 to 192.0.2.2, ports 5005 and 5007; 52 bytes with the datagram.
const IPV4: &str = "45 00 00 34 00 00 40 00 40 11 00 00 C0 00 02 01 C0 00 02 02";
/// From 2001:db8::1 to 2001:db8::2; 32 bytes after the header.
const IPV6: &str = "60 00 00 00 00 20 11 40 20 01 0D B8 00 00 00 00 00 00 00 00 00 00 00 01 \
                    20 01 0D B8 00 00 00 00 00 00 00 00 00 00 00 02";
const UDP: &str = "13 8D 13 8F 00 20 00 00";
const ETHERNET: &str = "02 00 00 00 00 02 02 00 00 00 00 01";
/// A Linux cooked header but for its protocol.
const SLL: &str = "00 00 00 01 00 06 02 00 00 00 00 01 00 00";
/// The rest of a version 2 cooked header, after its protocol.
const SLL2: &str = "00 00 00 00 00 02 00 01 00 06 02 00 00 00 00 01 00 00";

const V4_PORTS: &str = "192.0.2.1:5005 to 192.0.2.2:5007";
const V6_PORTS: &str = "[2001:db8::1]:5005 to [2001:db8::2]:5007";

fn v4() -> String {
    format!("{IPV4} {UDP} {DATAGRAM}")
}

fn v6() -> String {
    format!("{IPV6} {UDP} {DATAGRAM}")
}

/// Whether a file's numbers are in little-endian order, as its header says.
fn is_little(header: &str) -> bool {
    !header.starts_with("A1 B2")
}

fn number(header: &str, number: u32) -> [u8; 4] {
    match is_little(header) {
        true => number.to_le_bytes(),
        false => number.to_be_bytes(),
    }
}

/// A record of a frame, of which `cut` bytes are not captured. The time is
/// 2026-11-15 20:07:37 UTC and 250 parts.
fn record(header: &str, frame: &[u8], cut: u32) -> Vec<u8> {
    let len = frame.len() as u32;
    let numbers = [1_794_773_257, 250, len - cut, len];
    let mut record: Vec<u8> = numbers
        .iter()
        .flat_map(|value| number(header, *value))
        .collect();
    record.extend(&frame[..(len - cut) as usize]);
    record
}

/// A file of whole frames.
fn file(header: &str, link: u32, frames: &[String]) -> Vec<u8> {
    let mut file = bytes(header);
    file.extend(number(header, link));
    for frame in frames {
        file.extend(record(header, &bytes(frame), 0));
    }
    file
}

/// The lines of the summary about records: taken, other UDP, not UDP,
/// fragments, cut short, damaged.
fn records(counts: [u32; 6]) -> String {
    let kinds = [
        "taken as RTCP",
        "other UDP datagrams",
        "not UDP",
        "fragments",
        "cut short by the snap length",
        "with a damaged header",
    ];
    let lines = kinds.iter().zip(counts).filter(|(_, count)| *count > 0);
    let lines: String = lines
        .map(|(kind, count)| format!("    {kind}: {count}\n"))
        .collect();
    format!("  records: {}\n{lines}", counts.iter().sum::<u32>())
}

fn records_of(run: &Run) -> &str {
    let at = run.out.find("  records: ").expect("records");
    before_tables(&run.out[at..])
}

/// Both frames of a file of this link type are read.
fn both_are_read(header: &str, link: u32, frames: [String; 2]) {
    let fraction = match header.contains("3C") {
        true => "000000250",
        false => "000250000",
    };
    let run = run(&[], &file(header, link, &frames));
    let second = 24 + 16 + bytes(&frames[0]).len();
    let time = format!("2026-11-15 20:07:37.{fraction} UTC");
    let want = format!(
        "datagram 1: standard input record 1 at offset 24, {time}, {V4_PORTS}, 24 bytes\n\
         {PRINTED}\
         datagram 2: standard input record 2 at offset {second}, {time}, {V6_PORTS}, 24 bytes\n\
         {PRINTED}\
         summary\n  datagrams: 2\n    read: 2\n    refused: 0\n  packets: 4\n    SR: 0\n    \
         RR: 2\n    SDES: 2\n    BYE: 0\n    APP: 0\n    other types: 0\n{}",
        records([2, 0, 0, 0, 0, 0])
    );
    assert_same(before_tables(&run.out), &want);
    assert_eq!((run.err.as_str(), run.status), ("", 0));
}

#[test]
fn ethernet_in_either_byte_order_and_unit_of_time() {
    for header in [
        BIG_MICROSECONDS,
        BIG_NANOSECONDS,
        LITTLE_MICROSECONDS,
        LITTLE_NANOSECONDS,
    ] {
        let frames = [
            format!("{ETHERNET} 08 00 {}", v4()),
            format!("{ETHERNET} 86 DD {}", v6()),
        ];
        both_are_read(header, 1, frames);
    }
}

/// Bytes after the IP packet fill a short frame, and are no part of the datagram.
#[test]
fn ethernet_with_tags_and_fill() {
    let frames = [
        format!("{ETHERNET} 81 00 00 05 08 00 {} 00 00 00", v4()),
        format!("{ETHERNET} 88 A8 00 05 81 00 00 06 86 DD {} 00 00 00", v6()),
    ];
    both_are_read(LITTLE_MICROSECONDS, 1, frames);
}

/// The upper half of the link type says how long a check sequence is.
#[test]
fn ethernet_with_a_check_sequence() {
    let frames = [
        format!("{ETHERNET} 08 00 {} 01 02 03 04", v4()),
        format!("{ETHERNET} 86 DD {} 01 02 03 04", v6()),
    ];
    both_are_read(BIG_MICROSECONDS, 0x2400_0001, frames);
}

#[test]
fn linux_cooked() {
    let frames = [
        format!("{SLL} 08 00 {}", v4()),
        format!("{SLL} 86 DD {}", v6()),
    ];
    both_are_read(LITTLE_MICROSECONDS, 113, frames);
    let frames = [
        format!("08 00 {SLL2} {}", v4()),
        format!("86 DD {SLL2} {}", v6()),
    ];
    both_are_read(LITTLE_NANOSECONDS, 276, frames);
}

#[test]
fn bsd_loopback() {
    for family in ["0A", "18", "1C", "1E"] {
        let frames = [
            format!("02 00 00 00 {}", v4()),
            format!("{family} 00 00 00 {}", v6()),
        ];
        both_are_read(LITTLE_MICROSECONDS, 0, frames);
        let frames = [
            format!("00 00 00 02 {}", v4()),
            format!("00 00 00 {family} {}", v6()),
        ];
        both_are_read(BIG_MICROSECONDS, 0, frames.clone());
        both_are_read(LITTLE_MICROSECONDS, 108, frames);
    }
}

#[test]
fn raw_ip() {
    for link in [12, 14, 101, 228, 229] {
        both_are_read(BIG_NANOSECONDS, link, [v4(), v6()]);
    }
}

/// Options of IPv4 with bytes after the UDP datagram, and the extension headers
/// of IPv6: hop-by-hop, routing, destination options, a fragment that is whole,
/// authentication.
#[test]
fn options_and_extension_headers() {
    let options = format!(
        "46 00 00 3A {} 01 01 01 01 {UDP} {DATAGRAM} 00 00",
        &IPV4[12..]
    );
    let header = IPV6.replace("00 20 11 40", "00 4C 00 40");
    let extensions = format!(
        "{header} 2B 00 00 00 00 00 00 00 3C 00 00 00 00 00 00 00 2C 00 00 00 00 00 00 00 \
         33 00 00 06 00 00 00 01 11 01 00 00 00 00 00 00 00 00 00 00 {UDP} {DATAGRAM}"
    );
    both_are_read(BIG_MICROSECONDS, 101, [options, extensions]);
}

#[test]
fn what_is_passed_over_is_counted() {
    let frames = [
        v4(),
        // RTP, version 1, and a datagram of one byte.
        format!("{IPV4} {UDP} {}", DATAGRAM.replacen("C9", "60", 1)),
        format!("{IPV4} {UDP} {}", DATAGRAM.replacen("80", "40", 1)),
        "45 00 00 1D 00 00 40 00 40 11 00 00 C0 00 02 01 C0 00 02 02 13 8D 13 8F 00 09 00 00 80"
            .into(),
        // TCP in both, and ICMPv6 after a header with options.
        v4().replacen("40 11", "40 06", 1),
        v6().replacen("11 40", "06 40", 1),
        v6().replacen("11 40", "3C 40", 1)
            .replacen("13 8D 13 8F", "3A 00 00 00", 1),
        // The first and a later fragment in both.
        v4().replacen("40 00 40 11", "20 00 40 11", 1),
        v4().replacen("40 00 40 11", "00 01 40 11", 1),
        v6().replacen("11 40", "2C 40", 1)
            .replacen("13 8D 13 8F", "11 00 00 01", 1),
        v6().replacen("11 40", "2C 40", 1)
            .replacen("13 8D 13 8F", "11 00 00 08", 1),
        // IP version 5, a header of 4 words, a total under the header, one past the frame,
        // and UDP lengths under 8 and past the packet.
        v4().replacen("45", "55", 1),
        format!("44 00 00 30 {} {UDP} {DATAGRAM}", &IPV4[12..47]),
        v4().replacen("00 34", "00 13", 1),
        v4().replacen("00 34", "00 35", 1),
        v6().replacen("00 20 11", "00 21 11", 1),
        v4().replacen("00 20 00 00", "00 07 00 00", 1),
        v4().replacen("00 20 00 00", "00 21 00 00", 1),
        v6().replacen("00 20 00 00 80", "00 21 00 00 80", 1),
        v4(),
    ];
    let run = run(&[], &file(BIG_MICROSECONDS, 101, &frames));
    assert_eq!(records_of(&run), records([2, 3, 3, 4, 0, 8]));
    assert_eq!(run.out.matches(PRINTED).count(), 2);
    assert_eq!((run.err.as_str(), run.status), ("", 0));
}

#[test]
fn frames_of_other_protocols_are_not_udp() {
    let arp = file(
        BIG_MICROSECONDS,
        1,
        &[
            format!("{ETHERNET} 08 06 {}", v4()),
            format!("{ETHERNET} 81 00 00 05 08 06 {}", v4()),
            format!("{ETHERNET} 08"),
        ],
    );
    assert_eq!(records_of(&run(&[], &arp)), records([0, 0, 2, 0, 0, 1]));
    let family = file(BIG_MICROSECONDS, 0, &[format!("00 00 00 07 {}", v4())]);
    assert_eq!(records_of(&run(&[], &family)), records([0, 0, 1, 0, 0, 0]));
}

/// Whatever the snap length cuts, the record counts as cut, unless what is left
/// says that it is no whole UDP datagram.
#[test]
fn records_that_the_snap_length_cuts() {
    for (frame, ip) in [
        (format!("{ETHERNET} 08 00 {}", v4()), 14 + 20),
        (format!("{ETHERNET} 86 DD {}", v6()), 14 + 40),
    ] {
        let frame = bytes(&frame);
        for cut in 1..=frame.len() {
            let mut data = file(BIG_MICROSECONDS, 1, &[]);
            data.extend(record(BIG_MICROSECONDS, &frame, cut as u32));
            data.extend(record(BIG_MICROSECONDS, &frame, 0));
            let run = run(&[], &data);
            assert_eq!(records_of(&run), records([1, 0, 0, 0, 1, 0]), "{cut}");
            assert_eq!(run.out.matches(PRINTED).count(), 1);
            assert_eq!((run.err.as_str(), run.status), ("", 0));
        }
        let mut tcp = frame.clone();
        tcp[if ip == 34 { 23 } else { 20 }] = 6;
        let mut data = file(BIG_MICROSECONDS, 1, &[]);
        data.extend(record(BIG_MICROSECONDS, &tcp, (tcp.len() - ip) as u32));
        assert_eq!(records_of(&run(&[], &data)), records([0, 0, 1, 0, 0, 0]));
    }
}

#[test]
fn what_is_taken_by_port_and_by_first_bytes() {
    let rtp = format!("{IPV4} {UDP} {}", DATAGRAM.replacen("C9", "60", 1));
    let low = format!("{IPV4} {UDP} {}", DATAGRAM.replacen("C9", "BF", 1));
    let least = format!("{IPV4} {UDP} {}", DATAGRAM.replacen("C9", "C0", 1));
    let most = format!("{IPV4} {UDP} {}", DATAGRAM.replacen("80 C9", "BF DF", 1));
    let high = format!("{IPV4} {UDP} {}", DATAGRAM.replacen("C9", "E0", 1));
    let elsewhere = v4().replacen("13 8D 13 8F", "13 8E 13 90", 1);
    let frames = [v4(), rtp, low, least, most, high, elsewhere];
    let data = file(BIG_MICROSECONDS, 101, &frames);
    for (words, taken) in [
        (&["--summary"][..], 4),
        (&["--all"], 7),
        (&["--port", "5005"], 3),
        (&["--port", "5007"], 3),
        (&["--port", "5006"], 1),
        (&["--port", "5004"], 0),
        (&["--port", "5008", "--all"], 1),
        (&["--all", "--port", "5005"], 6),
    ] {
        let run = run(words, &data);
        let want = records([taken, 7 - taken, 0, 0, 0, 0]);
        assert_eq!(records_of(&run), want, "{words:?}");
    }
}

/// A bad datagram loses no later record.
#[test]
fn a_refused_datagram_between_two_others() {
    let bad = format!("{IPV4} {UDP} {}", DATAGRAM.replacen("81 CA", "81 C9", 1));
    let run = run(&[], &file(LITTLE_MICROSECONDS, 101, &[v4(), bad, v4()]));
    assert_eq!(run.out.matches(PRINTED).count(), 2);
    assert!(run
        .out
        .contains("\n    refused: 1\n      by refusal 2: 1\n"));
    assert_eq!((run.err.as_str(), run.status), ("", 0));
}

/// What is read before the damage is printed, with the summary, and the message
/// names the offset.
fn ends_at(data: &[u8], read: usize, message: &str) {
    let run = run(&[], data);
    assert_eq!(run.err, format!("rtcpdump: standard input: {message}\n"));
    assert_eq!(run.status, 1);
    assert_eq!(run.out.matches(PRINTED).count(), read);
    assert!(run.out.contains(&format!("summary\n  datagrams: {read}\n")));
    assert!(before_tables(&run.out).ends_with("  damaged places: 1\n"));
}

#[test]
fn a_file_header_that_is_damaged() {
    let data = file(BIG_MICROSECONDS, 1, &[]);
    for len in 4..data.len() {
        let message = format!("offset 0: the file header has {len} of 24 bytes");
        ends_at(&data[..len], 0, &message);
    }
    for header in [BIG_MICROSECONDS, LITTLE_NANOSECONDS] {
        let mut data = file(header, 101, &[v4()]);
        data[4] = data[4].wrapping_add(1);
        let version = if is_little(header) { 3 } else { 258 };
        let message = format!("offset 4: version {version} of pcap is not read");
        ends_at(&data, 0, &message);
    }
}

#[test]
fn a_link_type_that_is_not_read_is_named_once() {
    let data = file(LITTLE_MICROSECONDS, 105, &[v4(), v4()]);
    let run = run(&[], &data);
    let message = "rtcpdump: standard input: link type 105 is not one that is read\n";
    assert_eq!((run.err.as_str(), run.status), (message, 1));
    let want = "  records: 2\n    of a link type that is not read: 2\n";
    assert_eq!(records_of(&run), want);
}

#[test]
fn a_last_record_that_is_cut_off() {
    let whole = file(LITTLE_MICROSECONDS, 101, &[v4()]);
    let at = whole.len();
    let mut data = whole.clone();
    data.extend(record(LITTLE_MICROSECONDS, &bytes(&v4()), 0));
    for len in 1..16 {
        let message =
            format!("offset {at}: the record header has {len} of 16 bytes; no record follows");
        ends_at(&data[..at + len], 1, &message);
    }
    for left in 0..52 {
        let message = format!(
            "offset {at}: the record header says 52 bytes, and {left} are left; no record follows"
        );
        ends_at(&data[..at + 16 + left], 1, &message);
    }
}

/// One damaged record loses none after it.
#[test]
fn a_record_header_that_is_damaged() {
    let at = 24 + 68;
    let next = at + 68;
    for header in [BIG_MICROSECONDS, LITTLE_NANOSECONDS] {
        for (place, value, text) in [
            (12, 51, "the record header says 52 bytes of a frame of 51"),
            (8, 53, "the record header says 53 bytes of a frame of 52"),
            (
                8,
                u32::MAX,
                "the record header says 4294967295 bytes of a frame of 52",
            ),
            (4, u32::MAX, "the record header says 4294967295/"),
        ] {
            let mut data = file(header, 101, &[v4(), v4(), v4(), v4()]);
            data[at + place..][..4].copy_from_slice(&number(header, value));
            let run = run(&[], &data);
            let start = format!("rtcpdump: standard input: offset {at}: {text}");
            let end = format!("; the next record is at offset {next}\n");
            assert!(run.err.starts_with(&start), "{}", run.err);
            assert!(run.err.ends_with(&end), "{}", run.err);
            assert_eq!(run.out.matches(PRINTED).count(), 3);
            assert_eq!(run.status, 1);
        }
    }
}

/// Where a record says that it is shorter or longer than it is, and the next
/// header is not where it ends, those inside it and after it are found.
#[test]
fn a_record_with_another_length() {
    for (captured, original) in [
        (0, 52),
        (20, 52),
        (100, 100),
        (136, 136),
        (200, 200),
        (51, 52),
    ] {
        let mut data = file(LITTLE_MICROSECONDS, 101, &[v4(), v4(), v4(), v4(), v4()]);
        data[24 + 68 + 8..][..4].copy_from_slice(&number(LITTLE_MICROSECONDS, captured));
        data[24 + 68 + 12..][..4].copy_from_slice(&number(LITTLE_MICROSECONDS, original));
        let run = run(&[], &data);
        let read = run.out.matches(PRINTED).count();
        assert_eq!(
            read,
            if captured < 52 { 4 } else { 5 },
            "{captured}\n{}",
            run.err
        );
        assert_eq!(run.status, 1, "{captured}");
    }
}

/// A damaged file loses none of the next one.
#[test]
fn a_file_after_a_damaged_one() {
    let folder = std::path::Path::new(env!("CARGO_TARGET_TMPDIR"));
    let damaged = folder.join("damaged.pcap");
    std::fs::write(&damaged, bytes("A1 B2 C3 D4 00")).expect("a file");
    let damaged = damaged.to_str().expect("text");
    let run = run(&[damaged, "-"], &file(BIG_MICROSECONDS, 101, &[v4()]));
    let want = format!("rtcpdump: {damaged}: offset 0: the file header has 5 of 24 bytes\n");
    assert_eq!((run.err, run.status), (want, 1));
    assert_eq!(run.out.matches(PRINTED).count(), 1);
}
