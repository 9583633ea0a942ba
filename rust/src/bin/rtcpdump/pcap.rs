//! Classic pcap files: a header of 24 bytes, then records, each with a header
//! of 16 bytes.

use crate::input::Input;
use crate::ip::Passed;
use crate::link::Link;
use crate::order::Order;
use crate::record::{Damage, Next, Record, Records, MOST};
use crate::time::Time;
use std::io::{self, Read};

const FILE_HEADER: usize = 24;
const RECORD_HEADER: usize = 16;
/// The major version; a minor one changes nothing that is read here.
const VERSION: u16 = 2;
const MICROSECONDS: u32 = 0xA1B2_C3D4;
const NANOSECONDS: u32 = 0xA1B2_3C4D;
/// A record that is looked for after damage is so near to the last one.
const SECONDS_APART: u32 = 30 * 86_400;

/// The byte order, and how many units of time a second has.
fn magic(data: &[u8]) -> Option<(Order, u32)> {
    if data.len() < 4 {
        return None;
    }
    [Order::Big, Order::Little]
        .into_iter()
        .find_map(|order| match order.u32_at(data, 0) {
            MICROSECONDS => Some((order, 1_000_000)),
            NANOSECONDS => Some((order, 1_000_000_000)),
            _ => None,
        })
}

pub fn is_pcap(data: &[u8]) -> bool {
    magic(data).is_some()
}

/// The header of a record.
struct Header {
    seconds: u32,
    /// Units of the file's time.
    fraction: u32,
    captured: usize,
    original: u32,
}

/// The records of a file.
pub struct Pcap<R> {
    /// It starts with the record given last, which is kept until the next one is
    /// found after it: its length may be what is damaged.
    input: Input<R>,
    kept: usize,
    order: Order,
    units: u32,
    link: Result<Link, u32>,
    /// When the record given last was captured, and the one before it.
    last_second: Option<u32>,
    second_before: Option<u32>,
}

impl<R: Read> Records for Pcap<R> {
    fn next(&mut self) -> io::Result<Next<'_>> {
        let at = self.kept;
        if self.input.fill(at + RECORD_HEADER)? == at {
            return Ok(Next::End);
        }
        match self.checked(at)? {
            Ok(header) => Ok(Next::Record(self.record(at, header))),
            Err(text) => self.after_damage(at, text).map(Next::Damage),
        }
    }
}

impl<R: Read> Pcap<R> {
    /// Reads the header of a file whose first four bytes are pcap's.
    pub fn open(mut input: Input<R>) -> io::Result<Result<Self, Damage>> {
        let len = input.fill(FILE_HEADER)?;
        let header = input.window();
        let Some((order, units)) = magic(header) else {
            return Ok(Err(Damage::at(0, "no pcap file")));
        };
        if len < FILE_HEADER {
            let text = format!("the file header has {len} of 24 bytes");
            return Ok(Err(Damage::at(0, text)));
        }
        let version = order.u16_at(header, 4);
        if version != VERSION {
            let text = format!("version {version} of pcap is not read");
            return Ok(Err(Damage::at(4, text)));
        }
        // The upper half says how long the frames' check sequence is.
        let link = Link::of(order.u32_at(header, 20) & 0xFFFF, order);
        input.pass(FILE_HEADER);
        Ok(Ok(Pcap {
            input,
            kept: 0,
            order,
            units,
            link,
            last_second: None,
            second_before: None,
        }))
    }

    fn record(&mut self, at: usize, header: Header) -> Record<'_> {
        self.input.pass(at);
        self.kept = RECORD_HEADER + header.captured;
        self.second_before = self.last_second.replace(header.seconds);
        let nanoseconds = u64::from(header.fraction) * u64::from(1_000_000_000 / self.units);
        Record {
            at: self.input.offset(),
            time: Some(Time::new(header.seconds.into(), nanoseconds)),
            link: self.link,
            frame: &self.input.window()[RECORD_HEADER..self.kept],
            is_cut: header.captured < header.original as usize,
        }
    }

    /// The header at a place of the window, whose frame is held whole, or why
    /// it is none.
    fn checked(&mut self, at: usize) -> io::Result<Result<Header, String>> {
        let there = self.input.fill(at + RECORD_HEADER)? - at;
        if there < RECORD_HEADER {
            return Ok(Err(format!("the record header has {there} of 16 bytes")));
        }
        let header = match self.header(at) {
            Ok(header) => header,
            Err(text) => return Ok(Err(text)),
        };
        let (start, len) = (at + RECORD_HEADER, header.captured);
        let there = self.input.fill(start + len)? - start;
        if there < len {
            let text = format!("the record header says {len} bytes, and {there} are left");
            return Ok(Err(text));
        }
        Ok(Ok(header))
    }

    /// The header at a place of the window, where it agrees with itself.
    fn header(&self, at: usize) -> Result<Header, String> {
        let number = |place| self.order.u32_at(self.input.window(), at + place);
        let (captured, original) = (number(8), number(12));
        let header = Header {
            seconds: number(0),
            fraction: number(4),
            captured: captured as usize,
            original,
        };
        if captured > original {
            let text = format!("the record header says {captured} bytes of a frame of {original}");
            return Err(text);
        }
        if original == 0 || original as usize > MOST {
            return Err(format!(
                "the record header says a frame of {original} bytes"
            ));
        }
        if header.fraction >= self.units {
            let (part, units) = (header.fraction, self.units);
            return Err(format!("the record header says {part}/{units} of a second"));
        }
        Ok(header)
    }

    /// Looks for the next record: inside the one given last, whose length may
    /// be wrong, and after it.
    fn after_damage(&mut self, at: usize, text: String) -> io::Result<Damage> {
        let damaged = self.input.offset() + at as u64;
        let start = if at > 0 { RECORD_HEADER } else { 1 };
        self.input.pass(start);
        self.kept = 0;
        while self.input.fill(RECORD_HEADER)? == RECORD_HEADER {
            if self.is_record()? {
                let next = self.input.offset();
                let text = format!("{text}; the next record is at offset {next}");
                return Ok(Damage::at(damaged, text));
            }
            self.input.pass(1);
        }
        self.input.pass(self.input.window().len());
        Ok(Damage::at(damaged, format!("{text}; no record follows")))
    }

    /// Whether a second is near to the last records. The very last may be the
    /// damaged one, and its time be wrong.
    fn is_near(&self, second: u32) -> bool {
        let seconds = [self.last_second, self.second_before];
        let mut seconds = seconds.into_iter().flatten();
        seconds.any(|it| it.abs_diff(second) <= SECONDS_APART)
    }

    /// Whether the window starts with a record: near to the last ones in time
    /// and with a UDP datagram in it, or another record or the end after it.
    /// Where no time is sure yet, only the datagram counts.
    fn is_record(&mut self) -> io::Result<bool> {
        // Most places are none, which is seen without waiting for more bytes.
        let Ok(header) = self.header(0) else {
            return Ok(false);
        };
        let (is_near, is_sure) = (self.is_near(header.seconds), self.second_before.is_some());
        let end = RECORD_HEADER + header.captured;
        if !is_near && (is_sure || !self.may_hold_udp(end)) || self.checked(0)?.is_err() {
            return Ok(false);
        }
        let frame = &self.input.window()[RECORD_HEADER..end];
        if self.link.is_ok_and(|link| link.holds_udp(frame)) {
            return Ok(true);
        }
        let there = self.input.fill(end + RECORD_HEADER)? - end;
        let is_followed = there == 0 || there == RECORD_HEADER && self.header(end).is_ok();
        Ok(is_near && is_followed)
    }

    /// Whether what is held of a frame can be the start of one with UDP in it.
    fn may_hold_udp(&self, end: usize) -> bool {
        let window = self.input.window();
        let held = &window[RECORD_HEADER..end.min(window.len())];
        let is_start = |link: Link| matches!(link.udp(held), Ok(_) | Err(Passed::Short));
        self.link.is_ok_and(is_start)
    }
}
