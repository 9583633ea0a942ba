//! IPv4 and IPv6 packets: from there to the UDP datagram in one.

use std::net::{IpAddr, Ipv4Addr, Ipv6Addr, SocketAddr};

/// A UDP datagram.
pub struct Udp<'a> {
    pub source: SocketAddr,
    pub destination: SocketAddr,
    pub payload: &'a [u8],
}

/// A part of a UDP datagram, its header included.
pub struct Fragment<'a> {
    pub of: Whole,
    pub offset: usize,
    pub is_last: bool,
    pub data: &'a [u8],
}

/// The datagram that a fragment belongs to.
#[derive(Clone, Copy, PartialEq, Eq)]
pub struct Whole {
    pub source: IpAddr,
    pub destination: IpAddr,
    pub id: u32,
}

/// What a frame gives.
pub enum Found<'a> {
    Udp(Udp<'a>),
    Fragment(Fragment<'a>),
}

/// Why a frame gives nothing of UDP.
#[derive(Clone, Copy)]
pub enum Passed {
    NotUdp,
    /// Bytes that a header says are not there.
    Short,
    /// A header contradicts itself, or another.
    Damaged,
}

const HOP_BY_HOP: u8 = 0;
const UDP: u8 = 17;
const ROUTING: u8 = 43;
const FRAGMENT: u8 = 44;
const AUTHENTICATION: u8 = 51;
const DESTINATION_OPTIONS: u8 = 60;

pub fn byte(data: &[u8], at: usize) -> Result<u8, Passed> {
    data.get(at).copied().ok_or(Passed::Short)
}

pub fn u16_at(data: &[u8], at: usize) -> Result<u16, Passed> {
    Ok(u16::from_be_bytes(array(data, at)?))
}

pub fn after(data: &[u8], at: usize) -> Result<&[u8], Passed> {
    data.get(at..).ok_or(Passed::Short)
}

fn array<const N: usize>(data: &[u8], at: usize) -> Result<[u8; N], Passed> {
    let part = data.get(at..at + N).ok_or(Passed::Short)?;
    part.try_into().map_err(|_| Passed::Short)
}

pub fn v4(packet: &[u8]) -> Result<Found<'_>, Passed> {
    let first = byte(packet, 0)?;
    let header_len = 4 * usize::from(first & 15);
    if first >> 4 != 4 || header_len < 20 {
        return Err(Passed::Damaged);
    }
    let of = Whole {
        source: Ipv4Addr::from(array::<4>(packet, 12)?).into(),
        destination: Ipv4Addr::from(array::<4>(packet, 16)?).into(),
        id: u16_at(packet, 4)?.into(),
    };
    if packet[9] != UDP {
        return Err(Passed::NotUdp);
    }
    let total = usize::from(u16_at(packet, 2)?);
    if total < header_len {
        return Err(Passed::Damaged);
    }
    let data = packet.get(header_len..total).ok_or(Passed::Short)?;
    // The flag for more fragments, and the offset in units of 8 bytes.
    let word = u16_at(packet, 6)?;
    if word & 0x3FFF == 0 {
        return udp(of, data).map(Found::Udp);
    }
    Ok(Found::Fragment(Fragment {
        of,
        offset: 8 * usize::from(word & 0x1FFF),
        is_last: word & 0x2000 == 0,
        data,
    }))
}

pub fn v6(packet: &[u8]) -> Result<Found<'_>, Passed> {
    if byte(packet, 0)? >> 4 != 6 {
        return Err(Passed::Damaged);
    }
    let mut of = Whole {
        source: Ipv6Addr::from(array::<16>(packet, 8)?).into(),
        destination: Ipv6Addr::from(array::<16>(packet, 24)?).into(),
        id: 0,
    };
    let end = 40 + usize::from(u16_at(packet, 4)?);
    let (at, fragment) = extensions_end(&packet[..packet.len().min(end)])?;
    let data = packet.get(at..end).ok_or(Passed::Short)?;
    let Some(header) = fragment else {
        return udp(of, data).map(Found::Udp);
    };
    let word = u16_at(packet, header + 2)?;
    of.id = u32::from_be_bytes(array(packet, header + 4)?);
    Ok(Found::Fragment(Fragment {
        of,
        offset: usize::from(word & 0xFFF8),
        is_last: word & 1 == 0,
        data,
    }))
}

/// Where the UDP datagram or its part starts, after the extension headers of an
/// IPv6 packet, and where the header of a fragment is.
fn extensions_end(packet: &[u8]) -> Result<(usize, Option<usize>), Passed> {
    let (mut next, mut at, mut fragment) = (packet[6], 40, None);
    while next != UDP {
        let len = match next {
            HOP_BY_HOP | ROUTING | DESTINATION_OPTIONS => {
                8 * (1 + usize::from(byte(packet, at + 1)?))
            }
            FRAGMENT => {
                // The offset, and the flag for more fragments.
                let is_part = u16_at(packet, at + 2)? & 0xFFF9 != 0;
                fragment = fragment.or(is_part.then_some(at));
                8
            }
            AUTHENTICATION => 4 * (2 + usize::from(byte(packet, at + 1)?)),
            _ => return Err(Passed::NotUdp),
        };
        next = byte(packet, at)?;
        at += len;
    }
    match at <= packet.len() {
        true => Ok((at, fragment)),
        false => Err(Passed::Short),
    }
}

/// A UDP datagram with its header. Bytes after it are left out.
pub fn udp(of: Whole, data: &[u8]) -> Result<Udp<'_>, Passed> {
    let len = usize::from(u16_at(data, 4)?);
    Ok(Udp {
        source: (of.source, u16_at(data, 0)?).into(),
        destination: (of.destination, u16_at(data, 2)?).into(),
        payload: data.get(8..len).ok_or(Passed::Damaged)?,
    })
}
