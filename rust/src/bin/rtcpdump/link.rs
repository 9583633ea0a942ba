//! Link layers: from a captured frame to the IP packet in it.

use crate::ip::{self, after, byte, u16_at, Found, Passed};
use crate::order::Order;

/// A link layer, by pcap's numbers.
#[derive(Clone, Copy)]
pub enum Link {
    /// The address family in four bytes, as the machine orders them.
    Null(Order),
    Ethernet,
    RawIp,
    /// Linux cooked.
    Sll,
    Sll2,
}

impl Link {
    /// The layer, or its number where it is not read.
    pub fn of(number: u32, order: Order) -> Result<Self, u32> {
        match number {
            0 => Ok(Link::Null(order)),
            1 => Ok(Link::Ethernet),
            // 12 and 14 are what systems write for 101; 228 and 229 are IPv4 and IPv6 only.
            12 | 14 | 101 | 228 | 229 => Ok(Link::RawIp),
            // OpenBSD's loopback has the family in network byte order.
            108 => Ok(Link::Null(Order::Big)),
            113 => Ok(Link::Sll),
            276 => Ok(Link::Sll2),
            _ => Err(number),
        }
    }

    /// The first layer by which a frame of an unknown one holds UDP.
    pub fn of_frame(frame: &[u8]) -> Option<Self> {
        let null = [Order::Little, Order::Big].map(Link::Null);
        let layers = [Link::RawIp, Link::Ethernet, Link::Sll, Link::Sll2];
        let mut layers = layers.into_iter().chain(null);
        layers.find(|layer| layer.holds_udp(frame))
    }

    /// Whether a frame holds a UDP datagram, or a part of one.
    pub fn holds_udp(self, frame: &[u8]) -> bool {
        self.udp(frame).is_ok()
    }

    /// The UDP datagram in a frame, or why there is none to read.
    pub fn udp(self, frame: &[u8]) -> Result<Found<'_>, Passed> {
        match self {
            Link::Null(order) => {
                let packet = after(frame, 4)?;
                by_family(order.u32_at(frame, 0), packet)
            }
            Link::Ethernet => by_type(u16_at(frame, 12)?, after(frame, 14)?),
            Link::RawIp => match byte(frame, 0)? >> 4 {
                6 => ip::v6(frame),
                _ => ip::v4(frame),
            },
            Link::Sll => by_type(u16_at(frame, 14)?, after(frame, 16)?),
            Link::Sll2 => by_type(u16_at(frame, 0)?, after(frame, 20)?),
        }
    }
}

/// By the address family. IPv6 has another number on each system: Linux 10,
/// NetBSD and OpenBSD 24, FreeBSD 28, macOS 30.
fn by_family(family: u32, packet: &[u8]) -> Result<Found<'_>, Passed> {
    match family {
        2 => ip::v4(packet),
        10 | 24 | 28 | 30 => ip::v6(packet),
        _ => Err(Passed::NotUdp),
    }
}

/// By the EtherType. A VLAN tag is two bytes and the EtherType of what follows.
fn by_type(mut kind: u16, mut packet: &[u8]) -> Result<Found<'_>, Passed> {
    while matches!(kind, 0x8100 | 0x88A8) {
        kind = u16_at(packet, 2)?;
        packet = after(packet, 4)?;
    }
    match kind {
        0x0800 => ip::v4(packet),
        0x86DD => ip::v6(packet),
        _ => Err(Passed::NotUdp),
    }
}
