//! Captures, made byte by byte.

use crate::bytes;

/// How a file orders the bytes of its numbers.
#[derive(Clone, Copy, Debug, PartialEq)]
pub enum Order {
    Big,
    Little,
}

impl Order {
    pub fn u16(self, number: u16) -> Vec<u8> {
        match self {
            Order::Big => number.to_be_bytes().to_vec(),
            Order::Little => number.to_le_bytes().to_vec(),
        }
    }

    pub fn u32(self, number: u32) -> Vec<u8> {
        match self {
            Order::Big => number.to_be_bytes().to_vec(),
            Order::Little => number.to_le_bytes().to_vec(),
        }
    }

    pub fn u64(self, number: u64) -> Vec<u8> {
        match self {
            Order::Big => number.to_be_bytes().to_vec(),
            Order::Little => number.to_le_bytes().to_vec(),
        }
    }
}

/// An RR of a source, and an SDES packet that names it `a@b`.
pub fn named(ssrc: u32) -> Vec<u8> {
    let ssrc = ssrc.to_be_bytes();
    let cname = b"\x01\x03a@b\0\0\0";
    [
        b"\x80\xC9\0\x01",
        &ssrc[..],
        b"\x81\xCA\0\x03",
        &ssrc[..],
        cname,
    ]
    .concat()
}

/// A UDP datagram with its header, from port 5005 to port 5007.
pub fn udp(datagram: &[u8]) -> Vec<u8> {
    let len = (8 + datagram.len() as u16).to_be_bytes();
    [&bytes("13 8D 13 8F")[..], &len, &[0, 0], datagram].concat()
}

/// An IPv4 packet from 192.0.2.1 to 192.0.2.2, with its number and the word
/// about fragments.
pub fn v4(id: u16, word: u16, data: &[u8]) -> Vec<u8> {
    let len = (20 + data.len() as u16).to_be_bytes();
    let (id, word) = (id.to_be_bytes(), word.to_be_bytes());
    let rest = bytes("40 11 00 00 C0 00 02 01 C0 00 02 02");
    [&[0x45, 0][..], &len, &id, &word, &rest, data].concat()
}

/// An IPv6 packet from 2001:db8::1 to 2001:db8::2.
pub fn v6(next: u8, data: &[u8]) -> Vec<u8> {
    let len = (data.len() as u16).to_be_bytes();
    let address = |last| {
        let mut address = bytes("20 01 0D B8 00 00 00 00 00 00 00 00 00 00 00 00");
        address[15] = last;
        address
    };
    let start = [&[0x60, 0, 0, 0][..], &len, &[next, 64]].concat();
    [start, address(1), address(2), data.to_vec()].concat()
}

/// A frame of raw IP with a datagram in it.
pub fn frame(datagram: &[u8]) -> Vec<u8> {
    v4(0, 0x4000, &udp(datagram))
}

/// 2026-11-15 20:07:37 UTC.
pub const SECOND: u32 = 1_794_773_257;

/// The header of a pcap file with microseconds.
pub fn pcap(order: Order, link: u32) -> Vec<u8> {
    let numbers = [0, 0, 65_535, link].map(|it| order.u32(it)).concat();
    let version = [order.u16(2), order.u16(4)].concat();
    [order.u32(0xA1B2_C3D4), version, numbers].concat()
}

/// A record of a pcap file.
pub fn record(order: Order, microseconds: u64, frame: &[u8]) -> Vec<u8> {
    let second = SECOND + (microseconds / 1_000_000) as u32;
    let part = (microseconds % 1_000_000) as u32;
    let len = frame.len() as u32;
    let header = [second, part, len, len].map(|it| order.u32(it)).concat();
    [&header[..], frame].concat()
}

/// A block of a pcapng file.
pub fn block(order: Order, kind: u32, body: &[u8]) -> Vec<u8> {
    let fill = vec![0; body.len().next_multiple_of(4) - body.len()];
    let len = order.u32((12 + body.len() + fill.len()) as u32);
    [&order.u32(kind)[..], &len, body, &fill, &len].concat()
}

pub fn section(order: Order) -> Vec<u8> {
    let version = [order.u16(1), order.u16(0)].concat();
    let body = [order.u32(0x1A2B_3C4D), version, vec![0xFF; 8]].concat();
    block(order, 0x0A0D_0D0A, &body)
}

/// An interface description, with its options but for their end.
pub fn interface(order: Order, link: u16, options: &[(u16, Vec<u8>)]) -> Vec<u8> {
    let mut body = [order.u16(link), order.u16(0), order.u32(0)].concat();
    for (code, value) in options {
        body.extend(order.u16(*code));
        body.extend(order.u16(value.len() as u16));
        body.extend(value);
        body.resize(body.len().next_multiple_of(4), 0);
    }
    body.extend([0; 4]);
    block(order, 1, &body)
}

pub fn enhanced(order: Order, interface: u32, units: u64, frame: &[u8]) -> Vec<u8> {
    let len = frame.len() as u32;
    let (high, low) = ((units >> 32) as u32, units as u32);
    let numbers = [interface, high, low, len, len].map(|it| order.u32(it));
    block(order, 6, &[&numbers.concat()[..], frame].concat())
}

pub fn simple(order: Order, frame: &[u8]) -> Vec<u8> {
    let body = [&order.u32(frame.len() as u32)[..], frame].concat();
    block(order, 3, &body)
}
