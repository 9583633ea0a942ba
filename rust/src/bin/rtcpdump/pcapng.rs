//! pcapng files: blocks, each with its type, its length, a body and its length
//! once more. A section header says how its section orders bytes; interface
//! descriptions say how the frames after them are read.

use crate::input::Input;
use crate::interface::Interface;
use crate::order::Order;
use crate::record::{Damage, Next, Record, Records, MOST};
use std::io::{self, Read};

const SECTION: u32 = 0x0A0D_0D0A;
const INTERFACE: u32 = 1;
/// Of old files; Wireshark still reads it.
const OBSOLETE_PACKET: u32 = 2;
const SIMPLE_PACKET: u32 = 3;
const ENHANCED_PACKET: u32 = 6;
/// The types that are looked for after damage; others are passed over.
const KNOWN: [u32; 10] = [SECTION, 1, 2, 3, 4, 5, 6, 9, 10, 0xBAD];
const BYTE_ORDER: u32 = 0x1A2B_3C4D;
/// More than a block with the longest frame, or with keys and names, has.
const MOST_OF_BLOCK: usize = 16 * MOST;
/// More interfaces than a machine has.
const MOST_INTERFACES: usize = 65_536;

pub fn is_pcapng(data: &[u8]) -> bool {
    data.starts_with(&SECTION.to_be_bytes())
}

/// The records of a file.
pub struct Pcapng<R> {
    /// It starts with the block read last, which is kept until the next one is
    /// found after it.
    input: Input<R>,
    kept: usize,
    order: Order,
    interfaces: Vec<Interface>,
}

/// A frame's place in its block, and what is said of it.
struct Frame {
    at: usize,
    captured: usize,
    original: u32,
    units: Option<u64>,
    interface: usize,
}

impl<R: Read> Records for Pcapng<R> {
    /// The next record; blocks of other types are passed over.
    fn next(&mut self) -> io::Result<Next<'_>> {
        loop {
            let at = self.kept;
            if self.input.fill(at + 12)? == at {
                return Ok(Next::End);
            }
            let len = match self.block_len(at)? {
                Ok(len) => len,
                Err(text) => return self.after_damage(at, text).map(Next::Damage),
            };
            self.input.pass(at);
            self.kept = len;
            match self.block(len) {
                Ok(None) => (),
                Ok(Some(frame)) => return Ok(Next::Record(self.record(&frame))),
                Err(text) => return Ok(Next::Damage(Damage::at(self.input.offset(), text))),
            }
        }
    }
}

impl<R: Read> Pcapng<R> {
    /// A reader of a file whose first four bytes are pcapng's.
    pub fn open(input: Input<R>) -> Self {
        Pcapng {
            input,
            kept: 0,
            order: Order::Little,
            interfaces: Vec::new(),
        }
    }

    /// The length of the block at a place of the window, which is then held
    /// whole, or why there is none.
    fn block_len(&mut self, at: usize) -> io::Result<Result<usize, String>> {
        let there = self.input.fill(at + 12)? - at;
        if there < 12 {
            return Ok(Err(format!("the block has {there} bytes")));
        }
        let header = &self.input.window()[at..];
        let order = order_of(header).unwrap_or(self.order);
        let len = order.u32_at(header, 4) as usize;
        if !is_len(len) {
            return Ok(Err(format!("the block says a length of {len} bytes")));
        }
        let there = self.input.fill(at + len)? - at;
        if there < len {
            let text = format!("the block says a length of {len} bytes, and {there} are left");
            return Ok(Err(text));
        }
        let again = order.u32_at(self.input.window(), at + len - 4);
        if again as usize != len {
            let text = format!("the block says a length of {len} bytes, and of {again} at its end");
            return Ok(Err(text));
        }
        Ok(Ok(len))
    }

    /// Reads the block that the window starts with: a frame, or none.
    fn block(&mut self, len: usize) -> Result<Option<Frame>, String> {
        let block = &self.input.window()[..len];
        if let Some(order) = order_of(block) {
            self.order = order;
            self.interfaces.clear();
            return Ok(None);
        }
        let kind = self.order.u32_at(block, 0);
        match kind {
            INTERFACE if self.interfaces.len() < MOST_INTERFACES => {
                let interface = Interface::of(self.order, &block[8..len - 4])?;
                self.interfaces.push(interface);
                Ok(None)
            }
            SECTION => Err("the section header has no byte order".into()),
            SIMPLE_PACKET | ENHANCED_PACKET | OBSOLETE_PACKET => {
                let frame = self.frame(kind, &block[..len - 4])?;
                Ok(Some(frame))
            }
            _ => Ok(None),
        }
    }

    /// Where the frame of a block stands. The block goes without its last length.
    fn frame(&self, kind: u32, block: &[u8]) -> Result<Frame, String> {
        let start = if kind == SIMPLE_PACKET { 12 } else { 28 };
        if block.len() < start {
            return Err(format!("the block has {} bytes", block.len() + 4));
        }
        let number = |at| self.order.u32_at(block, at);
        let interface = match kind {
            SIMPLE_PACKET => 0,
            OBSOLETE_PACKET => self.order.u16_at(block, 8).into(),
            _ => number(8) as usize,
        };
        let Some(of) = self.interfaces.get(interface) else {
            return Err(format!("interface {interface} is not described"));
        };
        let original = number(start - 4);
        let captured = match kind {
            SIMPLE_PACKET if of.snap == 0 => original,
            SIMPLE_PACKET => original.min(of.snap),
            _ => number(20),
        };
        if captured > original {
            let text = format!("the block says {captured} bytes of a frame of {original}");
            return Err(text);
        }
        if captured as usize > block.len() - start {
            let left = block.len() - start;
            return Err(format!(
                "the block says {captured} bytes, and {left} are left"
            ));
        }
        let units = || u64::from(number(12)) << 32 | u64::from(number(16));
        Ok(Frame {
            at: start,
            captured: captured as usize,
            original,
            units: (kind != SIMPLE_PACKET).then(units),
            interface,
        })
    }

    fn record(&self, frame: &Frame) -> Record<'_> {
        let interface = &self.interfaces[frame.interface];
        Record {
            at: self.input.offset(),
            time: frame.units.map(|units| interface.time(units)),
            link: interface.link,
            frame: &self.input.window()[frame.at..][..frame.captured],
            is_cut: frame.captured < frame.original as usize,
        }
    }

    /// Looks for the next block of a known type: inside the one read last,
    /// whose length may be wrong, and after it.
    fn after_damage(&mut self, at: usize, text: String) -> io::Result<Damage> {
        let damaged = self.input.offset() + at as u64;
        // A damaged section header still says the byte order.
        if let Some(order) = order_of(&self.input.window()[at..]) {
            self.order = order;
            self.interfaces.clear();
        }
        self.input.pass(if at > 0 { 12 } else { 1 });
        self.kept = 0;
        while self.input.fill(12)? == 12 {
            if self.is_block()? {
                let next = self.input.offset();
                let text = format!("{text}; the next block is at offset {next}");
                return Ok(Damage::at(damaged, text));
            }
            self.input.pass(1);
        }
        self.input.pass(self.input.window().len());
        Ok(Damage::at(damaged, format!("{text}; no block follows")))
    }

    /// Whether the window starts with a block of a known type, with a UDP
    /// datagram in it, or another block or the end after it.
    fn is_block(&mut self) -> io::Result<bool> {
        let order = order_of(self.input.window()).unwrap_or(self.order);
        let kind = order.u32_at(self.input.window(), 0);
        if !KNOWN.contains(&kind) {
            return Ok(false);
        }
        let Ok(len) = self.block_len(0)? else {
            return Ok(false);
        };
        if self.holds_udp(kind, len) {
            return Ok(true);
        }
        let there = self.input.fill(len + 12)? - len;
        let next = &self.input.window()[len..];
        let order = order_of(next).unwrap_or(order);
        Ok(there == 0 || there == 12 && is_len(order.u32_at(next, 4) as usize))
    }

    /// Whether the block that the window starts with has a UDP datagram.
    fn holds_udp(&self, kind: u32, len: usize) -> bool {
        if ![SIMPLE_PACKET, ENHANCED_PACKET, OBSOLETE_PACKET].contains(&kind) {
            return false;
        }
        let block = &self.input.window()[..len - 4];
        let Ok(frame) = self.frame(kind, block) else {
            return false;
        };
        let link = self.interfaces[frame.interface].link;
        link.is_ok_and(|link| link.holds_udp(&block[frame.at..][..frame.captured]))
    }
}

/// Whether a block can have this length.
fn is_len(len: usize) -> bool {
    (12..=MOST_OF_BLOCK).contains(&len) && len % 4 == 0
}

/// The byte order that a section header says.
fn order_of(block: &[u8]) -> Option<Order> {
    if block.len() < 12 || !is_pcapng(block) {
        return None;
    }
    [Order::Big, Order::Little]
        .into_iter()
        .find(|order| order.u32_at(block, 8) == BYTE_ORDER)
}
