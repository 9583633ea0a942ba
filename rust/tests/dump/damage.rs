//! Damaged captures of every format: a message, a status, no panic, and nothing
//! lost that can be found again.

use crate::capture::{enhanced, frame, interface, named, pcap, record, section, simple, Order};
use crate::run;
use std::collections::BTreeSet;
use std::path::{Path, PathBuf};

/// As many damaged captures of each format.
const COUNT: usize = 10_000;
/// As many are given to one run.
const BATCH: usize = 500;
/// As many datagrams are in a capture.
const DATAGRAMS: u32 = 6;

/// Numbers that look random and are the same in every run.
struct Numbers(u64);

impl Numbers {
    fn next(&mut self) -> u64 {
        self.0 ^= self.0 << 13;
        self.0 ^= self.0 >> 7;
        self.0 ^= self.0 << 17;
        self.0
    }

    fn below(&mut self, end: usize) -> usize {
        (self.next() % end as u64) as usize
    }

    fn byte(&mut self) -> u8 {
        (self.next() >> 32) as u8
    }
}

/// A capture: what comes before its records, and the records, each with one
/// datagram. The source of record `i` is `i + 1`.
struct Capture {
    start: Vec<u8>,
    records: Vec<Vec<u8>>,
}

fn digits(bytes: &[u8]) -> String {
    bytes.iter().map(|byte| format!("{byte:02x}")).collect()
}

fn lines_of_16(bytes: &[u8], offset: impl Fn(usize) -> String) -> String {
    let lines = bytes.chunks(16).enumerate();
    let lines = lines.map(|(at, it)| format!("{}{}\n", offset(16 * at), digits(it)));
    lines.collect::<String>() + "\n"
}

/// The formats: pcap and pcapng in both orders, lines, xxd and tcpdump -x.
fn capture(format: usize) -> Capture {
    let order = if format % 2 == 0 {
        Order::Big
    } else {
        Order::Little
    };
    let datagrams = (1..=DATAGRAMS).map(named);
    let record = |(index, datagram): (usize, Vec<u8>)| match format {
        0 | 1 => record(order, index as u64, &frame(&datagram)),
        2 | 3 if index == 3 => simple(order, &frame(&datagram)),
        2 | 3 => enhanced(order, 0, index as u64, &frame(&datagram)),
        4 => format!("label\t{}\n", digits(&datagram)).into_bytes(),
        5 => lines_of_16(&datagram, |at| format!("{at:08x}: ")).into_bytes(),
        _ => {
            let lines = lines_of_16(&frame(&datagram), |at| format!("\t0x{at:04x}:  "));
            format!("20:07:37.000250 IP a > b: UDP\n{lines}").into_bytes()
        }
    };
    let start = match format {
        0 | 1 => pcap(order, 101),
        2 | 3 => [section(order), interface(order, 101, &[])].concat(),
        _ => Vec::new(),
    };
    Capture {
        start,
        records: datagrams.enumerate().map(record).collect(),
    }
}

/// Damages some bytes: overwritten, left out, put in, or all zero.
fn damage(numbers: &mut Numbers, bytes: &mut Vec<u8>) {
    let at = numbers.below(bytes.len());
    let len = 1 + numbers.below((bytes.len() - at).min(20));
    match numbers.below(4) {
        0 => bytes[at..at + len]
            .iter_mut()
            .for_each(|it| *it = numbers.byte()),
        1 => drop(bytes.drain(at..at + len)),
        2 => drop(bytes.splice(at..at, (0..len).map(|_| numbers.byte()))),
        _ => bytes[at..at + len].fill(0),
    }
}

/// Runs the program over files, and gives for each the sources of the datagrams
/// that were read, and whether something was said about it.
fn sources(files: &[PathBuf]) -> Vec<(BTreeSet<u32>, bool)> {
    let names: Vec<&str> = files.iter().map(|it| it.to_str().expect("text")).collect();
    let run = run(&[&["--json"], &names[..]].concat(), b"");
    assert!(!run.err.contains("panicked"), "{}", run.err);
    let mut found = vec![(BTreeSet::new(), false); files.len()];
    for line in run.out.lines() {
        let Some((_, rest)) = line.split_once("\"file\":\"") else {
            continue;
        };
        let (name, rest) = rest.split_once('"').expect("a name");
        let place = name.rsplit('/').next().expect("a file's name");
        let place: usize = place.parse().expect("a file's number");
        match line.starts_with("{\"object\":\"damage\"") {
            true => found[place].1 = true,
            false if rest.contains("\"refusal\":null") => {
                let (_, ssrc) = rest.split_once("\"ssrc\":\"").expect("a source");
                let ssrc = u32::from_str_radix(&ssrc[..8], 16).expect("a source");
                found[place].0.insert(ssrc);
            }
            false => (),
        }
    }
    assert!(run
        .out
        .lines()
        .last()
        .expect("a line")
        .starts_with("{\"object\":\"summary\""));
    let is_said = found.iter().any(|(_, is_said)| *is_said);
    assert_eq!(run.status, i32::from(is_said), "{}", run.err);
    assert_eq!(run.err.is_empty(), !is_said);
    found
}

/// Writes damaged captures, and looks at what is read of each.
fn each(name: &str, seed: u64, mut make: impl FnMut(&mut Numbers) -> (Vec<u8>, BTreeSet<u32>)) {
    let folder = Path::new(env!("CARGO_TARGET_TMPDIR")).join(name);
    std::fs::create_dir_all(&folder).expect("a folder");
    let files: Vec<PathBuf> = (0..BATCH).map(|it| folder.join(it.to_string())).collect();
    let mut numbers = Numbers(seed);
    for batch in 0..COUNT / BATCH {
        let mut wanted = Vec::new();
        for file in &files {
            let (bytes, want) = make(&mut numbers);
            std::fs::write(file, bytes).expect("a file");
            wanted.push(want);
        }
        for ((want, (got, _)), file) in wanted.iter().zip(sources(&files)).zip(&files) {
            let lost: Vec<&u32> = want.difference(&got).collect();
            assert!(lost.is_empty(), "{file:?} of batch {batch} lost {lost:?}");
        }
    }
}

/// One record is damaged, and all others are read.
fn others_are_read(name: &str, format: usize) {
    let whole = capture(format);
    each(name, 1 + format as u64, |numbers| {
        let mut records = whole.records.clone();
        let place = numbers.below(records.len());
        // The end of a line is left: without it two lines are one.
        let record = &mut records[place];
        let end = if format < 4 { 0 } else { 1 };
        let last = record.split_off(record.len() - end);
        damage(numbers, record);
        record.extend(last);
        let others = (0..DATAGRAMS).filter(|it| *it != place as u32);
        let want = others.map(|it| it + 1).collect();
        ([&whole.start[..], &records.concat()].concat(), want)
    });
}

#[test]
fn pcap_with_one_damaged_record() {
    others_are_read("damaged-pcap-big", 0);
    others_are_read("damaged-pcap-little", 1);
}

#[test]
fn pcapng_with_one_damaged_record() {
    others_are_read("damaged-pcapng-big", 2);
    others_are_read("damaged-pcapng-little", 3);
}

#[test]
fn text_with_one_damaged_record() {
    others_are_read("damaged-lines", 4);
    others_are_read("damaged-xxd", 5);
    others_are_read("damaged-tcpdump", 6);
}

/// Anything may be damaged, the headers too, often, and the end cut off: it
/// ends with a summary and a status.
#[test]
fn any_damage_ends_well() {
    let captures: Vec<Capture> = (0..7).map(capture).collect();
    each("damaged-at-all", 99, |numbers| {
        let whole = &captures[numbers.below(captures.len())];
        let mut bytes = [&whole.start[..], &whole.records.concat()].concat();
        for _ in 0..1 + numbers.below(12) {
            damage(numbers, &mut bytes);
            bytes.push(numbers.byte());
        }
        if numbers.below(3) == 0 {
            bytes.truncate(numbers.below(bytes.len()));
        }
        (bytes, BTreeSet::new())
    });
}
