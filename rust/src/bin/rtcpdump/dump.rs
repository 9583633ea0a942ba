//! From the bytes of a file to its datagrams.

use crate::datagram::{Datagram, Origin, Place};
use crate::fault::{self, Fault};
use crate::input::Input;
use crate::ip::{self, Found, Udp};
use crate::kind::{self, Kind};
use crate::lines::{Entry, Lines, Text};
use crate::link::Link;
use crate::options::{Options, Style};
use crate::out::Out;
use crate::pcap::Pcap;
use crate::pcapng::Pcapng;
use crate::print::Printer;
use crate::record::{Next, Record, Records};
use crate::summary::Summary;
use crate::text::escaped;
use crate::{html, tables};
use bokyjave::{Compound, Packet, RtcpParseError};
use std::collections::BTreeSet;
use std::io::{self, Read, Write};

/// As many damaged places and lines of a file are named; all are counted.
const MOST_NAMED: u64 = 10;
/// A text that starts with so many lines that are no hex is none of ours.
const MOST_BAD: u64 = 5;
/// A longer file is not one datagram.
const MOST_RAW: usize = 1 << 24;

pub struct Dump<'o> {
    options: &'o Options,
    printer: Printer<'o>,
    summary: Summary,
    /// How many damaged places and lines of the present file there are.
    in_file: u64,
    /// The link types of which was said that they are not read.
    other_links: BTreeSet<u32>,
}

impl<'o> Dump<'o> {
    pub fn new(options: &'o Options, out: Out) -> Self {
        Dump {
            options,
            printer: Printer::new(options, out),
            summary: Summary::default(),
            in_file: 0,
            other_links: BTreeSet::new(),
        }
    }

    /// The datagrams of a file of any kind.
    pub fn file(&mut self, name: &str, source: impl Read) -> io::Result<()> {
        self.in_file = 0;
        self.other_links.clear();
        let mut input = Input::new(source);
        if self.options.is_raw {
            self.raw(name, input)?;
        } else if let Err(error) = input.fill(kind::LEN) {
            self.damage(name, &error.to_string())?;
        } else {
            self.kind(name, input)?;
        }
        match self.in_file.saturating_sub(MOST_NAMED) {
            0 => Ok(()),
            more => self
                .printer
                .damage(name, &format!("{more} more damaged places")),
        }
    }

    fn kind(&mut self, name: &str, input: Input<impl Read>) -> io::Result<()> {
        let text = match kind::of(input.window()) {
            Kind::Pcap => match Pcap::open(input) {
                Ok(Ok(mut records)) => return self.records(name, &mut records),
                Ok(Err(damage)) => damage.to_string(),
                Err(error) => error.to_string(),
            },
            Kind::Pcapng => return self.records(name, &mut Pcapng::open(input)),
            Kind::Text => return self.text(name, &mut Lines::new(input)),
            Kind::Packed(program) => format!("packed: {program} FILE | rtcpdump"),
            Kind::Other => "no pcap, pcapng or hex digits; --raw reads it as one datagram".into(),
        };
        self.damage(name, &text)
    }

    /// Says that a file, or a place in it, cannot be read.
    pub fn damage(&mut self, name: &str, text: &str) -> io::Result<()> {
        self.summary.damages += 1;
        self.named(name, text)
    }

    /// The first messages about a file.
    fn named(&mut self, name: &str, text: &str) -> io::Result<()> {
        self.in_file += 1;
        match self.in_file <= MOST_NAMED {
            true => self.printer.damage(name, text),
            false => Ok(()),
        }
    }

    /// Prints the summary, and says whether all was read.
    pub fn finish(mut self) -> io::Result<bool> {
        if let Some(file) = &self.options.html {
            let page = html::page(&self.summary, self.options);
            if let Err(error) = std::fs::write(file, page) {
                let name = escaped(file.as_os_str().as_encoded_bytes());
                self.damage(&name, &error.to_string())?;
            }
        }
        let (out, only) = (&mut self.printer.out, self.options.ssrc);
        match self.options.style {
            Style::Json => writeln!(out, "{}", tables::json(&self.summary, only))?,
            _ => tables::print(out, &self.summary, only)?,
        }
        out.flush()?;
        Ok(self.summary.is_whole())
    }

    fn raw(&mut self, name: &str, mut input: Input<impl Read>) -> io::Result<()> {
        match input.fill(MOST_RAW + 1) {
            Ok(len) if len <= MOST_RAW => {
                let from = Origin::of(name, Place::Whole);
                self.datagram(&from, input.window())
            }
            Ok(_) => self.damage(name, "too long for one datagram"),
            Err(error) => self.damage(name, &error.to_string()),
        }
    }

    fn text(&mut self, name: &str, lines: &mut Lines<impl Read>) -> io::Result<()> {
        let mut is_hex = false;
        while is_hex || self.in_file < MOST_BAD {
            let text = match lines.next() {
                Ok(text) => text,
                Err(error) => return self.damage(name, &error.to_string()),
            };
            is_hex |= !matches!(text, Text::NotHex(_));
            match text {
                Text::Entry(entry) => self.entry(name, &entry)?,
                Text::Bad(line, why) => self.bad_line(name, line, why)?,
                Text::NotHex(line) => self.bad_line(name, line, "not hex digits in pairs")?,
                Text::End => return Ok(()),
            }
        }
        self.damage(name, "no pcap, pcapng or hex digits; the rest is not read")
    }

    fn bad_line(&mut self, name: &str, line: u64, why: &str) -> io::Result<()> {
        self.summary.bad_lines += 1;
        self.named(name, &format!("line {line}: {why}"))
    }

    fn entry(&mut self, name: &str, entry: &Entry) -> io::Result<()> {
        let from = Origin {
            label: escaped(&entry.label),
            ..Origin::of(name, Place::Line(entry.line))
        };
        let link = Link::of_frame(&entry.data);
        // Wireshark also copies the bytes of the datagram alone.
        if !entry.is_packet || link.is_none() && is_rtcp(&entry.data) {
            return self.datagram(&from, &entry.data);
        }
        self.summary.records.all += 1;
        self.frame(from, link.unwrap_or(Link::RawIp), &entry.data, false)
    }

    fn records(&mut self, name: &str, records: &mut impl Records) -> io::Result<()> {
        let mut number = 0;
        loop {
            match records.next() {
                Ok(Next::Record(record)) => {
                    number += 1;
                    self.record(name, number, &record)?;
                }
                Ok(Next::Damage(damage)) => self.damage(name, &damage.to_string())?,
                Ok(Next::End) => return Ok(()),
                Err(error) => return self.damage(name, &error.to_string()),
            }
        }
    }

    fn record(&mut self, name: &str, number: u64, record: &Record) -> io::Result<()> {
        self.summary.records.all += 1;
        let from = Origin {
            time: record.time,
            ..Origin::of(name, Place::Record(number, record.at))
        };
        match record.link {
            Ok(link) => self.frame(from, link, record.frame, record.is_cut),
            Err(link) => {
                self.summary.records.of_other_link += 1;
                match self.other_links.insert(link) {
                    true => {
                        let text = format!("link type {link} is not one that is read");
                        self.printer.damage(name, &text)
                    }
                    false => Ok(()),
                }
            }
        }
    }

    /// The UDP datagram of a frame, or the one that it completes.
    fn frame(&mut self, from: Origin, link: Link, frame: &[u8], is_cut: bool) -> io::Result<()> {
        let fragment = match link.udp(frame) {
            Ok(Found::Udp(udp)) => return self.udp(from, &udp),
            Ok(Found::Fragment(fragment)) => fragment,
            Err(passed) => {
                self.summary.records.passed(passed, is_cut);
                return Ok(());
            }
        };
        let Some(whole) = self.summary.records.fragments.add(&fragment) else {
            return Ok(());
        };
        match ip::udp(fragment.of, &whole) {
            Ok(udp) => self.udp(from, &udp),
            Err(passed) => {
                self.summary.records.passed(passed, false);
                Ok(())
            }
        }
    }

    fn udp(&mut self, from: Origin, udp: &Udp) -> io::Result<()> {
        let is_taken = self.takes(udp);
        self.summary.records.udp(is_taken);
        if !is_taken {
            return Ok(());
        }
        let addresses = Some((udp.source, udp.destination));
        self.datagram(&Origin { addresses, ..from }, udp.payload)
    }

    fn takes(&self, udp: &Udp) -> bool {
        let ports = [udp.source.port(), udp.destination.port()];
        let is_of_port = self.options.port.is_none_or(|port| ports.contains(&port));
        is_of_port && (self.options.takes_all || is_rtcp(udp.payload))
    }

    fn datagram(&mut self, from: &Origin, data: &[u8]) -> io::Result<()> {
        self.summary.datagrams += 1;
        let datagram = Datagram {
            number: self.summary.datagrams,
            from,
            data,
        };
        match packets(data) {
            Ok(packets) => {
                for packet in &packets {
                    self.summary.packet(&datagram, packet);
                }
                self.printer.datagram(&datagram, &packets, None)
            }
            Err(error) => self.refused(&datagram, error),
        }
    }

    fn refused(&mut self, datagram: &Datagram, error: RtcpParseError) -> io::Result<()> {
        let (fault, len) = Fault::of(datagram.data, error);
        self.summary.refusal(datagram, &fault);
        let before = fault::with_start(&datagram.data[..len]);
        let packets = fault::after_start(&before);
        self.printer.datagram(datagram, &packets, Some(&fault))
    }
}

/// RFC 5761 section 4: the second byte of RTCP is 192 to 223.
fn is_rtcp(data: &[u8]) -> bool {
    matches!(data, [0x80..=0xBF, 192..=223, ..])
}

fn packets(data: &[u8]) -> Result<Vec<Packet<'_>>, RtcpParseError> {
    Compound::parse(data)?.collect()
}
