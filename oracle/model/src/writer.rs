//! The compound writer: a state, and what each call makes of it.

use crate::packet::CNAME;
use crate::refusal::{Answer, Refusal};
use crate::write::{packet_bytes, Given};

/// Every value is a state, also one that no call returned.
#[derive(Clone, Copy, Debug, Default, PartialEq, Eq, Hash)]
pub struct Writer {
    pub length: u64,
    pub closed: bool,
    pub padded: bool,
    pub cname: bool,
}

impl Writer {
    /// Adds a packet after the datagram so far. The answer is the packet's size.
    pub fn add(&mut self, given: &Given, buffer: &mut [u8]) -> Answer<u64> {
        if self.closed {
            return Err(Refusal::CLOSED);
        }
        if self.padded {
            return Err(Refusal::ALREADY_PADDED);
        }
        if self.length == 0 && !given.kind().is_report() {
            return Err(Refusal::WRITER_NEEDS_REPORT);
        }
        let bytes = packet_bytes(given)?;
        let size = bytes.len() as u64;
        let room = buffer.len() as u64;
        if room < self.length {
            return Err(Refusal::output_too_small(self.length));
        }
        if room - self.length < size {
            return Err(Refusal::output_too_small(self.length.saturating_add(size)));
        }
        let start = self.length as usize;
        buffer[start..start + bytes.len()].copy_from_slice(&bytes);
        *self = Writer {
            length: self.length + size,
            closed: false,
            padded: given.padding() > 0,
            cname: self.cname || names_cname(given),
        };
        Ok(size)
    }

    pub fn close(&mut self) -> Answer<()> {
        if self.closed {
            return Err(Refusal::CLOSED);
        }
        if !self.cname {
            return Err(Refusal::WRITER_NEEDS_CNAME);
        }
        self.closed = true;
        Ok(())
    }
}

fn names_cname(given: &Given) -> bool {
    match given {
        Given::Sdes { lists, .. } => lists.items.types.contains(&CNAME),
        _ => false,
    }
}
