//! What is printed of each datagram, and of damaged places.

use crate::datagram::Datagram;
use crate::fault::Fault;
use crate::options::{Options, Style};
use crate::out::Out;
use crate::text::{count, hex};
use crate::{brief, fields, json};
use bokyjave::Packet;
use std::io::{self, Write};

pub struct Printer<'o> {
    options: &'o Options,
    pub out: Out,
    /// How many datagrams are printed.
    printed: u64,
}

impl<'o> Printer<'o> {
    pub fn new(options: &'o Options, out: Out) -> Self {
        Printer {
            options,
            out,
            printed: 0,
        }
    }

    /// A datagram that is read, or refused after these packets.
    pub fn datagram(
        &mut self,
        datagram: &Datagram,
        packets: &[Packet],
        fault: Option<&Fault>,
    ) -> io::Result<()> {
        if self.printed == self.options.most || !self.is_asked(datagram, packets, fault) {
            return Ok(());
        }
        self.printed += 1;
        match self.options.style {
            Style::Full => self.full(datagram, packets, fault),
            Style::Brief => self.brief(datagram, packets, fault),
            Style::Json => writeln!(self.out, "{}", json::datagram(datagram, packets, fault)),
        }
    }

    /// Whether the datagram names the source that is asked for. Of a packet that
    /// fails only the place of its sender is looked at.
    fn is_asked(&self, datagram: &Datagram, packets: &[Packet], fault: Option<&Fault>) -> bool {
        let Some(ssrc) = self.options.ssrc else {
            return true;
        };
        let failed = fault.and_then(|fault| fault.packet.as_ref());
        let sender = failed.and_then(|it| datagram.data.get(it.offset + 4..it.offset + 8));
        let is_sender = sender.is_some_and(|sender| sender == ssrc.to_be_bytes());
        is_sender || packets.iter().any(|packet| fields::names(packet, ssrc))
    }

    fn full(
        &mut self,
        datagram: &Datagram,
        packets: &[Packet],
        fault: Option<&Fault>,
    ) -> io::Result<()> {
        let len = count(datagram.data.len(), "byte");
        let (number, from) = (datagram.number, datagram.from);
        writeln!(self.out, "datagram {number}: {from}, {len}")?;
        for (index, packet) in packets.iter().enumerate() {
            fields::packet(&mut self.out, index + 1, packet)?;
        }
        match fault {
            Some(fault) => self.refusal(datagram.data, fault),
            None => Ok(()),
        }
    }

    fn refusal(&mut self, data: &[u8], fault: &Fault) -> io::Result<()> {
        writeln!(self.out, "  refused: {} {}", fault.text, fault.details())?;
        if let Some(failed) = &fault.packet {
            let (number, offset, at) = (failed.number, failed.offset, failed.at);
            let type_ = match data.get(offset + 1) {
                Some(type_) => format!(", type {type_}"),
                None => String::new(),
            };
            writeln!(
                self.out,
                "    packet {number}{type_}, at offset {offset} of the datagram"
            )?;
            let place = offset + at;
            let value = match data.get(place) {
                Some(byte) => format!("byte {at} of the packet, which is {byte:02x}"),
                None => "its end".into(),
            };
            writeln!(
                self.out,
                "    fault at offset {place} of the datagram: {value}"
            )?;
        }
        let (section, sentence) = (fault.rule.section, fault.rule.sentence);
        writeln!(self.out, "    RFC 3550 {section}: \"{sentence}\"")?;
        match data {
            [] => writeln!(self.out, "  bytes: none"),
            _ => writeln!(self.out, "  bytes: {}", hex(data)),
        }
    }

    fn brief(
        &mut self,
        datagram: &Datagram,
        packets: &[Packet],
        fault: Option<&Fault>,
    ) -> io::Result<()> {
        let start = brief::start(datagram);
        for packet in packets {
            writeln!(self.out, "{start} {}", brief::packet(packet))?;
        }
        match fault {
            Some(fault) => writeln!(self.out, "{start} {}", brief::refusal(fault)),
            None => Ok(()),
        }
    }

    /// A message about a file.
    pub fn damage(&mut self, file: &str, text: &str) -> io::Result<()> {
        if self.options.style == Style::Json {
            writeln!(self.out, "{}", json::damage(file, text))?;
        }
        self.out.complain(&format!("{file}: {text}"))
    }
}
