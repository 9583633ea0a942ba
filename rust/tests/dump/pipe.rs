//! Input that comes bit by bit, and input without an end.

use crate::capture::{enhanced, frame, interface, named, pcap, record, section, v4, Order};
use std::io::{BufRead, BufReader, Write};
use std::process::{Child, ChildStdin, Command, Stdio};
use std::sync::mpsc::{channel, Receiver};
use std::time::Duration;

/// The program, waiting for input, and the lines that it prints.
fn started(words: &[&str]) -> (Child, ChildStdin, Receiver<String>) {
    let mut child = Command::new(env!("CARGO_BIN_EXE_rtcpdump"))
        .args(words)
        .stdin(Stdio::piped())
        .stdout(Stdio::piped())
        .spawn()
        .expect("rtcpdump");
    let stdin = child.stdin.take().expect("standard input");
    let out = BufReader::new(child.stdout.take().expect("standard output"));
    let (sender, lines) = channel();
    std::thread::spawn(move || {
        for line in out.lines() {
            if sender.send(line.expect("text")).is_err() {
                break;
            }
        }
    });
    (child, stdin, lines)
}

/// Each part is shown before the next is sent. The time limit only ends a
/// program that shows nothing.
fn is_shown(start: &[u8], parts: &[Vec<u8>]) {
    let (mut child, mut stdin, lines) = started(&["--brief"]);
    stdin.write_all(start).expect("a start");
    for (index, part) in parts.iter().enumerate() {
        stdin.write_all(part).expect("a part");
        stdin.flush().expect("a part");
        for kind in ["RR", "SDES"] {
            let line = lines.recv_timeout(Duration::from_secs(60)).expect("a line");
            assert!(line.starts_with(&format!("{} ", index + 1)), "{line}");
            assert!(line.contains(&format!(" {kind} ")), "{line}");
        }
    }
    drop(stdin);
    assert!(child.wait().expect("an end").success());
    assert_eq!(lines.iter().next().as_deref(), Some("summary"));
}

#[test]
fn each_datagram_is_shown_when_it_comes() {
    let order = Order::Little;
    let frames = [1, 2, 3].map(|ssrc| frame(&named(ssrc)));
    let records = frames.clone().map(|it| record(order, 0, &it));
    is_shown(&pcap(order, 101), &records);
    let blocks = frames.map(|it| enhanced(order, 0, 0, &it));
    is_shown(
        &[section(order), interface(order, 101, &[])].concat(),
        &blocks,
    );
    let hex = [1, 2, 3].map(|ssrc| {
        let digits: String = named(ssrc).iter().map(|it| format!("{it:02x}")).collect();
        format!("x {digits}\n").replace("x ", "a\t").into_bytes()
    });
    is_shown(b"# hex\n", &hex);
}

/// The most memory that a process had, in kilobytes.
fn peak(child: &Child) -> Option<u64> {
    let status = std::fs::read_to_string(format!("/proc/{}/status", child.id())).ok()?;
    let line = status
        .lines()
        .find_map(|line| line.strip_prefix("VmHWM:"))?;
    line.trim().trim_end_matches(" kB").parse().ok()
}

/// 48 megabytes of records, and 2 of damage, take little memory.
#[test]
fn a_long_input_takes_little_memory() {
    let order = Order::Little;
    let large = record(order, 0, &v4(0, 0, &vec![0x5A; 60_000]));
    let junk = vec![0xFF; 2_500];
    for part in [large, junk] {
        let (mut child, mut stdin, lines) = started(&["--brief"]);
        stdin.write_all(&pcap(order, 101)).expect("a start");
        for _ in 0..800 {
            stdin.write_all(&part).expect("a part");
        }
        // What comes last is shown when all before it is read.
        let last = record(order, 0, &frame(&named(1)));
        stdin.write_all(&last).expect("a part");
        assert!(lines.recv().expect("a line").starts_with("1 "));
        if let Some(peak) = peak(&child) {
            assert!(peak < 16_384, "{peak} kB");
        }
        drop(stdin);
        child.wait().expect("an end");
    }
}
