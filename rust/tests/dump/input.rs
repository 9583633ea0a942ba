//! Hex lines, raw files, options, and files that cannot be read.

use crate::{assert_same, before_tables, bytes, root, run, DATAGRAM, PRINTED};

/// The summary of datagrams like [`DATAGRAM`], and of refused ones.
fn summary(read: u64, refused: &[(u64, u64)]) -> String {
    let count: u64 = refused.iter().map(|(_, count)| count).sum();
    let numbers: String = refused
        .iter()
        .map(|(number, count)| format!("      by refusal {number}: {count}\n"))
        .collect();
    format!(
        "summary\n  datagrams: {}\n    read: {read}\n    refused: {count}\n{numbers}  \
         packets: {}\n    SR: 0\n    RR: {read}\n    SDES: {read}\n    BYE: 0\n    \
         APP: 0\n    other types: 0\n",
        read + count,
        2 * read
    )
}

#[test]
fn lines_with_and_without_a_label() {
    let joined: String = DATAGRAM.split(' ').collect::<String>().to_lowercase();
    let text = format!(
        "# a comment\n\n{joined}\r\n\r\n   \nab\u{1b}:1\t{DATAGRAM}\nprogram\t:5005\t{joined}\n\
         empty:1\t\n80C9\n{DATAGRAM}"
    );
    let run = run(&[], text.as_bytes());
    let refused = |there: usize| {
        let type_ = if there == 2 { ", type 201" } else { "" };
        format!(
            "  refused: a datagram that ends inside the header of a packet (refusal 2: bytes \
             needed 4, bytes there {there})\n    packet 1{type_}, at offset 0 of the datagram\n    \
             fault at offset {there} of the datagram: its end\n    RFC 3550 6.4.1: \"The length of \
             this RTCP packet in 32-bit words minus one, including the header and any padding.\"\n"
        )
    };
    let (nothing, two) = (refused(0), refused(2));
    let want = format!(
        "datagram 1: standard input line 3, 24 bytes\n{PRINTED}\
         datagram 2: standard input line 6, ab\\u{{1b}}:1, 24 bytes\n{PRINTED}\
         datagram 3: standard input line 7, program\\t:5005, 24 bytes\n{PRINTED}\
         datagram 4: standard input line 8, empty:1, 0 bytes\n{nothing}  bytes: none\n\
         datagram 5: standard input line 9, 2 bytes\n{two}  bytes: 80c9\n\
         datagram 6: standard input line 10, 24 bytes\n{PRINTED}{}",
        summary(4, &[(2, 2)])
    );
    assert_same(before_tables(&run.out), &want);
    assert_eq!((run.err.as_str(), run.status), ("", 0));
}

#[test]
fn a_line_that_is_not_hex_loses_no_later_one() {
    let text = format!("80C\nlabel\t80G9\n80\u{0}9\n{DATAGRAM}\n\u{FF}\u{FE}\n{DATAGRAM}\n");
    let run = run(&["-"], text.as_bytes());
    let want = format!(
        "datagram 1: standard input line 4, 24 bytes\n{PRINTED}\
         datagram 2: standard input line 6, 24 bytes\n{PRINTED}{}  lines that are not hex: 4\n",
        summary(2, &[])
    );
    assert_same(before_tables(&run.out), &want);
    let want: String = [1, 2, 3, 5]
        .map(|line| format!("rtcpdump: standard input: line {line}: not hex digits in pairs\n"))
        .concat();
    assert_eq!((run.err, run.status), (want, 1));
}

#[test]
fn a_byte_order_mark_is_no_part_of_a_line() {
    let run = run(&[], format!("\u{FEFF}{DATAGRAM}").as_bytes());
    assert!(run.out.contains("line 1, 24 bytes\n  packet 1: "));
    assert_eq!((run.err.as_str(), run.status), ("", 0));
}

#[test]
fn a_raw_file_is_one_datagram() {
    let run = run(&["--raw", "-"], &bytes(DATAGRAM));
    let want = format!(
        "datagram 1: standard input, 24 bytes\n{PRINTED}{}",
        summary(1, &[])
    );
    assert_same(before_tables(&run.out), &want);
    assert_eq!((run.err.as_str(), run.status), ("", 0));
}

#[test]
fn a_datagram_without_the_option_is_named() {
    for data in [bytes(DATAGRAM), vec![0], vec![0x7F], vec![0xBF]] {
        let run = run(&[], &data);
        let want = "rtcpdump: standard input: no pcap, pcapng or hex digits; --raw reads it as \
                    one datagram\n";
        let summary = summary(0, &[]) + "  damaged places: 1\n";
        assert_eq!((run.err.as_str(), run.status), (want, 1));
        assert_same(before_tables(&run.out), &summary);
    }
}

#[test]
fn a_bad_datagram_loses_no_later_one() {
    let text = format!("40C9000111223344\n{DATAGRAM}\n81CA000000\n{DATAGRAM}\n80C9000111223344\n");
    let run = run(&["--summary"], text.as_bytes());
    assert_same(
        before_tables(&run.out),
        &summary(2, &[(1, 1), (7, 1), (8, 1)]),
    );
    assert_eq!((run.err.as_str(), run.status), ("", 0));
}

#[test]
fn the_first_ones_are_printed_and_all_are_counted() {
    let run = run(
        &["--first", "1"],
        format!("{DATAGRAM}\n80\n{DATAGRAM}").as_bytes(),
    );
    let want = format!(
        "datagram 1: standard input line 1, 24 bytes\n{PRINTED}{}",
        summary(2, &[(2, 1)])
    );
    assert_same(before_tables(&run.out), &want);
}

#[test]
fn a_file_that_is_not_there_loses_no_later_one() {
    let file = "samples/captures/no such file";
    let run = run(&[file, "-"], DATAGRAM.as_bytes());
    assert!(
        run.err.starts_with(&format!("rtcpdump: {file}: ")),
        "{}",
        run.err
    );
    let want = format!(
        "datagram 1: standard input line 1, 24 bytes\n{PRINTED}{}  damaged places: 1\n",
        summary(1, &[])
    );
    assert_same(before_tables(&run.out), &want);
    assert_eq!(run.status, 1);
}

#[test]
fn nothing_is_an_empty_file() {
    let run = run(&[], b"");
    assert_same(before_tables(&run.out), &summary(0, &[]));
    assert_eq!((run.err.as_str(), run.status), ("", 0));
}

#[test]
fn options_that_are_wrong() {
    for (words, want) in [
        (&["--port"][..], "--port wants a number"),
        (&["--port", "65536"], "--port wants a number, not \"65536\""),
        (&["--first", "x"], "--first wants a number, not \"x\""),
        (&["--ssrc"], "--ssrc wants hex digits"),
        (
            &["--ssrc", "112233445"],
            "--ssrc wants hex digits, not \"112233445\"",
        ),
        (&["--html"], "--html wants a file"),
        (&["--colour"], "no option \"--colour\""),
    ] {
        let run = run(words, b"");
        let want = format!("rtcpdump: {want}\n\nusage: rtcpdump ");
        assert!(run.err.starts_with(&want), "{}", run.err);
        assert_eq!((run.out.as_str(), run.status), ("", 2));
    }
}

/// Each option is in the text of `--help`, and in the manual page.
#[test]
fn the_usage_and_the_manual_name_each_option() {
    let manual = root().join("docs/rtcpdump.1");
    let manual = std::fs::read_to_string(manual).expect("the manual page");
    let run_h = run(&["-h"], b"");
    let run = run(&["--help"], b"");
    for option in [
        "--all",
        "--port N",
        "--raw",
        "--first N",
        "--summary",
        "--ssrc X",
        "--brief",
        "--json",
        "--html FILE",
        "--help",
        "--version",
    ] {
        assert!(run.out.contains(&format!("\n  {option}")), "{option}");
        let name = option
            .split(' ')
            .next()
            .expect("a name")
            .replace('-', "\\-");
        assert!(manual.contains(&name), "{option}");
    }
    assert_eq!(run_h.out, run.out);
    assert_eq!((run.err.as_str(), run.status), ("", 0));
}

#[test]
fn the_version_and_what_the_library_was_proved_from() {
    let run = run(&["--version"], b"");
    let start = concat!(
        "rtcpdump ",
        env!("CARGO_PKG_VERSION"),
        ", library proved from commit "
    );
    assert!(run.out.starts_with(start), "{}", run.out);
    assert_eq!((run.err.as_str(), run.status), ("", 0));
}

#[test]
fn words_after_two_dashes_are_files() {
    let run = run(&["--", "--raw"], b"");
    assert!(run.err.starts_with("rtcpdump: --raw: "), "{}", run.err);
    assert_eq!(run.status, 1);
}
