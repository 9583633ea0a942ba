//! The program rtcpdump: what it prints, and how it ends.

mod capture;
mod captures;
mod damage;
mod faults;
mod fields;
mod html;
mod input;
mod json;
mod pcap;
mod pcapng;
mod pipe;
mod tables;
mod text;

use std::io::Write;
use std::path::{Path, PathBuf};
use std::process::{Command, Stdio};

/// What a run printed, and whether it ended well.
struct Run {
    out: String,
    err: String,
    status: i32,
}

fn root() -> PathBuf {
    Path::new(env!("CARGO_MANIFEST_DIR")).join("..")
}

/// Runs the program in the project's root.
fn run(words: &[&str], input: &[u8]) -> Run {
    let mut child = Command::new(env!("CARGO_BIN_EXE_rtcpdump"))
        .args(words)
        .current_dir(root())
        .stdin(Stdio::piped())
        .stdout(Stdio::piped())
        .stderr(Stdio::piped())
        .spawn()
        .expect("rtcpdump");
    let mut stdin = child.stdin.take().expect("standard input");
    let input = input.to_vec();
    // The program prints while it reads. One that has ended takes no input.
    let writer = std::thread::spawn(move || drop(stdin.write_all(&input)));
    let output = child.wait_with_output().expect("an end");
    writer.join().expect("a writer");
    Run {
        out: String::from_utf8(output.stdout).expect("text"),
        err: String::from_utf8(output.stderr).expect("text"),
        status: output.status.code().expect("an exit status"),
    }
}

/// The bytes that hex digits with blanks between give.
fn bytes(hex: &str) -> Vec<u8> {
    let byte = |hex| u8::from_str_radix(hex, 16).expect("a byte");
    hex.split_whitespace().map(byte).collect()
}

/// The first line in which two texts differ, which is easier to read than both.
fn assert_same(got: &str, want: &str) {
    for (at, (got, want)) in got.lines().zip(want.lines()).enumerate() {
        assert_eq!(got, want, "line {}", at + 1);
    }
    assert_eq!(got.lines().count(), want.lines().count());
    assert_eq!(got, want);
}

/// What is printed before the tables of sources and refusals.
fn before_tables(out: &str) -> &str {
    let ends = ["\nsources\n", "\nrefusals\n"].map(|title| out.find(title));
    let end = ends.iter().flatten().min();
    &out[..end.map_or(out.len(), |end| end + 1)]
}

/// An RR and an SDES packet with a CNAME.
const DATAGRAM: &str = "80 C9 00 01 11 22 33 44 \
                        81 CA 00 03 11 22 33 44 01 03 61 40 62 00 00 00";

/// What is printed of [`DATAGRAM`] after the first line.
const PRINTED: &str = "  packet 1: receiver report (RR), type 201, 8 bytes
    SSRC of sender: 11223344
  packet 2: source description (SDES), type 202, 16 bytes
    chunk 1 of SSRC 11223344, 12 bytes
      CNAME: \"a@b\"
";
