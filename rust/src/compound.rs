use crate::ffi::{self, part};
use crate::{
    header, padding_count, App, Bye, CompoundBuilder, ReceiverReport, RtcpPacket, RtcpPacketParser,
    RtcpParseError, Sdes, SenderReport,
};
use std::iter::FusedIterator;

/// A datagram: one or more packets, the first of them a report, with a CNAME in
/// some chunk. It is checked whole before the first packet is given, and is an
/// iterator over its packets. None of them is refused.
///
/// ```
/// use bokyjave::{Compound, Packet, RtcpParseError};
///
/// let datagram = b"\x80\xC9\x00\x01\x00\x00\x00\x07\x81\xCA\x00\x02\x00\x00\x00\x07\x01\x01a\x00";
/// let compound = Compound::parse(datagram)?;
/// assert_eq!(compound.n_packets(), 2);
/// let packets = compound.collect::<Result<Vec<_>, _>>()?;
/// assert!(matches!(packets[..], [Packet::Rr(_), Packet::Sdes(_)]));
/// assert_eq!(Compound::parse(&datagram[..8]).unwrap_err(), RtcpParseError::NoCname);
/// # Ok::<(), RtcpParseError>(())
/// ```
#[derive(Clone, Debug)]
pub struct Compound<'a> {
    data: &'a [u8],
    n_packets: usize,
    /// The type, the place and the length of each packet, where there is room.
    rows: [[u64; 3]; Compound::LISTED],
    next: usize,
    /// The place of the packet that is stepped over next.
    at: u64,
}

impl<'a> Compound<'a> {
    /// The packets of a datagram that are listed at once. Where there are more,
    /// they are walked over.
    const LISTED: usize = 3;

    /// Reads a datagram, or says why it cannot be read.
    #[inline]
    pub fn parse(data: &'a [u8]) -> Result<Self, RtcpParseError> {
        let mut compound = Compound {
            data,
            n_packets: 0,
            rows: [[0; 3]; Self::LISTED],
            next: 0,
            at: 0,
        };
        let listed = ffi::rtcp_compound_packets(data, compound.rows.as_flattened_mut());
        let numbers = match listed.number {
            // There are more packets than rows: so many numbers.
            10 => listed.first,
            _ => listed.done()?.size,
        };
        compound.n_packets = numbers as usize / 3;
        Ok(compound)
    }

    /// The number of packets of the datagram.
    pub fn n_packets(&self) -> usize {
        self.n_packets
    }

    /// The packet at the place of the walk.
    fn step(&mut self) -> Result<Packet<'a>, RtcpParseError> {
        let step = ffi::rtcp_walk_step(self.data, self.at).done()?;
        self.at = step.at;
        let data = part(self.data, step.offset, step.len);
        Packet::of_kind(step.kind as u8, data)
            .unwrap_or_else(|| Ok(Packet::Unknown(Unknown::of_step(data, &step))))
    }

    /// A builder for a datagram.
    pub fn builder() -> CompoundBuilder<'a> {
        CompoundBuilder::default()
    }
}

impl<'a> Iterator for Compound<'a> {
    type Item = Result<Packet<'a>, RtcpParseError>;

    #[inline]
    fn next(&mut self) -> Option<Self::Item> {
        if self.next == self.n_packets {
            return None;
        }
        self.next += 1;
        if self.n_packets > Self::LISTED {
            return Some(self.step());
        }
        let [kind, offset, len] = self.rows[self.next - 1];
        let read = Packet::of_kind(kind as u8, part(self.data, offset, len));
        Some(read.unwrap_or_else(|| {
            self.at = offset;
            self.step()
        }))
    }
}

impl FusedIterator for Compound<'_> {}

/// A packet of any kind: one of a datagram, or a lone one.
///
/// ```
/// use bokyjave::{prelude::*, Packet, RtcpParseError};
///
/// let packet = Packet::parse(&[0x81, 203, 0, 1, 0, 0, 0, 7])?;
/// assert_eq!((packet.type_(), packet.length()), (203, 8));
/// let Packet::Bye(bye) = packet else { panic!("not a BYE packet") };
/// assert_eq!(bye.ssrcs().next(), Some(7));
/// # Ok::<(), RtcpParseError>(())
/// ```
#[derive(Clone, Copy, Debug, PartialEq, Eq)]
pub enum Packet<'a> {
    /// An APP packet.
    App(App<'a>),
    /// A BYE packet.
    Bye(Bye<'a>),
    /// A receiver report.
    Rr(ReceiverReport<'a>),
    /// An SDES packet.
    Sdes(Sdes<'a>),
    /// A sender report.
    Sr(SenderReport<'a>),
    /// A packet of another type.
    Unknown(Unknown<'a>),
}

/// What is asked of a packet, whichever kind it is of.
macro_rules! whichever {
    ($any:expr, $packet:ident, $asked:expr) => {
        match $any {
            Packet::App($packet) => $asked,
            Packet::Bye($packet) => $asked,
            Packet::Rr($packet) => $asked,
            Packet::Sdes($packet) => $asked,
            Packet::Sr($packet) => $asked,
            Packet::Unknown($packet) => $asked,
        }
    };
}

impl<'a> Packet<'a> {
    /// The packet of one of the five kinds that these bytes of a datagram are, as
    /// the library has said of the datagram.
    #[inline]
    fn of_kind(kind: u8, data: &'a [u8]) -> Option<Result<Self, RtcpParseError>> {
        match kind {
            Sdes::PACKET_TYPE => Some(Ok(Packet::Sdes(Sdes::accepted(data)))),
            _ => Self::parse_kind(kind, data),
        }
    }

    /// Reads a packet of one of the five kinds.
    #[inline]
    fn parse_kind(kind: u8, data: &'a [u8]) -> Option<Result<Self, RtcpParseError>> {
        Some(match kind {
            SenderReport::PACKET_TYPE => SenderReport::parse(data).map(Packet::Sr),
            ReceiverReport::PACKET_TYPE => ReceiverReport::parse(data).map(Packet::Rr),
            Sdes::PACKET_TYPE => Sdes::parse(data).map(Packet::Sdes),
            Bye::PACKET_TYPE => Bye::parse(data).map(Packet::Bye),
            App::PACKET_TYPE => App::parse(data).map(Packet::App),
            _ => return None,
        })
    }

    /// Whether the packet is of another type than the five.
    pub fn is_unknown(&self) -> bool {
        matches!(self, Packet::Unknown(_))
    }

    /// The packet's bytes, header and padding included.
    pub fn bytes(&self) -> &'a [u8] {
        whichever!(self, packet, packet.bytes())
    }

    /// The padding, its count at the end; empty where the packet is not padded.
    pub fn padding_bytes(&self) -> &'a [u8] {
        whichever!(self, packet, packet.padding_bytes())
    }

    /// The number of padding bytes, if the packet is padded.
    pub fn padding(&self) -> Option<u8> {
        padding_count(self.padding_bytes())
    }

    /// The packet as one of a kind or of a type of yours, or why its bytes cannot
    /// be read as such.
    ///
    /// ```
    /// use bokyjave::{prelude::*, Bye, Packet, ReceiverReport};
    ///
    /// let packet = Packet::parse(&[0x80, 201, 0, 1, 0, 0, 0, 7])?;
    /// assert_eq!(packet.try_as::<ReceiverReport>()?.ssrc(), 7);
    /// assert_eq!(packet.try_as::<Bye>().unwrap_err().number(), 6);
    /// # Ok::<(), bokyjave::RtcpParseError>(())
    /// ```
    pub fn try_as<P>(&'a self) -> Result<P, RtcpParseError>
    where
        P: RtcpPacket + TryFrom<&'a Self, Error = RtcpParseError>,
    {
        P::try_from(self)
    }
}

impl RtcpPacket for Packet<'_> {
    const MIN_PACKET_LEN: usize = 4;
    /// Of no use: a packet has the type of its kind.
    const PACKET_TYPE: u8 = 255;
}

impl<'a> RtcpPacketParser<'a> for Packet<'a> {
    /// Reads one packet by the `parse` of its kind.
    fn parse(data: &'a [u8]) -> Result<Self, RtcpParseError> {
        let read = match *data {
            [_, kind, _, _, ..] => Self::parse_kind(kind, data),
            _ => None,
        };
        read.unwrap_or_else(|| Unknown::parse(data).map(Packet::Unknown))
    }

    fn header_data(&self) -> [u8; 4] {
        header(self.bytes())
    }
}

macro_rules! kinds {
    ($($kind:ident $variant:ident)*) => { $(
        impl<'a> From<$kind<'a>> for Packet<'a> {
            fn from(packet: $kind<'a>) -> Self {
                Packet::$variant(packet)
            }
        }

        impl<'a> TryFrom<Packet<'a>> for $kind<'a> {
            type Error = RtcpParseError;

            fn try_from(packet: Packet<'a>) -> Result<Self, RtcpParseError> {
                match packet {
                    Packet::$variant(packet) => Ok(packet),
                    packet => $kind::parse(packet.bytes()),
                }
            }
        }

        impl<'a> TryFrom<Unknown<'a>> for $kind<'a> {
            type Error = RtcpParseError;

            fn try_from(packet: Unknown<'a>) -> Result<Self, RtcpParseError> {
                $kind::parse(packet.data)
            }
        }

        impl<'a> TryFrom<&Unknown<'a>> for $kind<'a> {
            type Error = RtcpParseError;

            fn try_from(packet: &Unknown<'a>) -> Result<Self, RtcpParseError> {
                $kind::parse(packet.data)
            }
        }

        impl<'a> TryFrom<&Packet<'a>> for $kind<'a> {
            type Error = RtcpParseError;

            fn try_from(packet: &Packet<'a>) -> Result<Self, RtcpParseError> {
                Self::try_from(*packet)
            }
        }
    )* };
}

kinds! { App App Bye Bye ReceiverReport Rr Sdes Sdes SenderReport Sr }

impl<'a> From<Unknown<'a>> for Packet<'a> {
    fn from(packet: Unknown<'a>) -> Self {
        Packet::Unknown(packet)
    }
}

/// A packet of another type than the five.
///
/// ```
/// use bokyjave::{prelude::*, Compound, Packet};
///
/// let datagram = b"\x80\xC9\x00\x01\x00\x00\x00\x07\x81\xCA\x00\x02\x00\x00\x00\x07\x01\x01a\x00\
///                  \x81\xCD\x00\x01nack";
/// let last = Compound::parse(datagram)?.last().expect("a last packet")?;
/// let Packet::Unknown(nack) = last else { panic!("packet type {}", last.type_()) };
/// assert_eq!((nack.type_(), nack.count(), nack.body()), (205, 1, &b"nack"[..]));
/// # Ok::<(), bokyjave::RtcpParseError>(())
/// ```
#[derive(Clone, Copy, Debug, PartialEq, Eq)]
pub struct Unknown<'a> {
    data: &'a [u8],
    /// Where the padding starts.
    body: u32,
}

impl RtcpPacket for Unknown<'_> {
    const MIN_PACKET_LEN: usize = 4;
    /// Of no use: the packet has a type of its own.
    const PACKET_TYPE: u8 = 255;
}

impl<'a> RtcpPacketParser<'a> for Unknown<'a> {
    /// Reads one packet of whatever type. The library reads such packets in a
    /// datagram, and not as its first: so it gets a copy, behind an empty report.
    ///
    /// ```
    /// use bokyjave::{prelude::*, RtcpParseError, Unknown};
    ///
    /// let nack = b"\x81\xCD\x00\x01nack";
    /// assert_eq!(Unknown::parse(nack)?.body(), b"nack");
    /// let refused = RtcpParseError::Truncated { expected: 8, actual: 7 };
    /// assert_eq!(Unknown::parse(&nack[..7]), Err(refused));
    /// let refused = RtcpParseError::TooLarge { expected: 8, actual: 9 };
    /// assert_eq!(Unknown::parse(b"\x81\xCD\x00\x01nacks"), Err(refused));
    /// # Ok::<(), RtcpParseError>(())
    /// ```
    fn parse(data: &'a [u8]) -> Result<Self, RtcpParseError> {
        const REPORT: [u8; 8] = [0x80, ReceiverReport::PACKET_TYPE, 0, 1, 0, 0, 0, 0];
        let [_, _, high, low, ..] = *data else {
            return Err(RtcpParseError::Truncated {
                expected: Self::MIN_PACKET_LEN,
                actual: data.len(),
            });
        };
        let expected = 4 * (usize::from(u16::from_be_bytes([high, low])) + 1);
        let left_over = RtcpParseError::TooLarge {
            expected,
            actual: data.len(),
        };
        let datagram = [&REPORT, data].concat();
        match ffi::rtcp_walk_step(&datagram, REPORT.len() as u64).done() {
            Ok(_) if expected < data.len() => Err(left_over),
            Ok(step) => Ok(Self::of_step(data, &step)),
            Err(refusal) => match RtcpParseError::from(refusal) {
                RtcpParseError::NonLastCompoundPacketPadding => Err(left_over),
                error => Err(error),
            },
        }
    }

    fn header_data(&self) -> [u8; 4] {
        header(self.data)
    }
}

impl<'a> Unknown<'a> {
    fn of_step(data: &'a [u8], step: &ffi::RtcpStep) -> Self {
        Unknown {
            data,
            body: step.body as u32,
        }
    }

    /// The packet's bytes, header and padding included.
    pub fn data(&self) -> &'a [u8] {
        self.data
    }

    /// The same as [`data`](Self::data).
    pub fn bytes(&self) -> &'a [u8] {
        self.data
    }

    /// The packet type.
    pub fn type_(&self) -> u8 {
        self.data[1]
    }

    /// The low 5 bits of the first byte.
    pub fn count(&self) -> u8 {
        self.data[0] & Self::MAX_COUNT
    }

    /// The low 5 bits of the first byte.
    pub fn subtype(&self) -> u8 {
        self.count()
    }

    /// The number of bytes.
    pub fn length(&self) -> usize {
        self.data.len()
    }

    /// The bytes between the header and the padding.
    pub fn body(&self) -> &'a [u8] {
        &self.data[Self::MIN_PACKET_LEN..self.body as usize]
    }

    /// The number of padding bytes, if the packet is padded.
    pub fn padding(&self) -> Option<u8> {
        padding_count(self.padding_bytes())
    }

    /// The padding, its count at the end; empty where the packet is not padded.
    pub fn padding_bytes(&self) -> &'a [u8] {
        &self.data[self.body as usize..]
    }

    /// The packet as one of a kind or of a type of yours, or why its bytes cannot
    /// be read as such.
    pub fn try_as<P>(&'a self) -> Result<P, RtcpParseError>
    where
        P: RtcpPacket + TryFrom<&'a Self, Error = RtcpParseError>,
    {
        P::try_from(self)
    }
}

#[cfg(test)]
mod tests {
    use super::*;
    use crate::ffi::{rtcp_walk_open, rtcp_walk_step};
    use crate::RtcpPacketParserExt;

    #[test]
    fn a_walk_starts_where_the_library_opens_it() {
        let rr = b"\x80\xC9\x00\x01\x11\x22\x33\x44";
        let cname = b"\x81\xCA\x00\x03\x11\x22\x33\x44\x01\x03a@b\x00\x00\x00";
        let datagram = [&rr[..], &cname[..]].concat();
        let compound = Compound::parse(&datagram).expect("a datagram");
        let opened = rtcp_walk_open(&datagram).done().expect("a walk");
        assert_eq!(compound.at, opened.at);
        for refused in [&rr[..], &cname[..], &datagram[..20], &[]] {
            let opened = rtcp_walk_open(refused).done().expect_err("a refusal");
            let parsed = Compound::parse(refused).expect_err("a refusal");
            assert_eq!(parsed, RtcpParseError::from(opened));
        }
    }

    /// Few packets are listed, more are walked over: both give the same.
    #[test]
    fn packets_are_those_of_the_walk() {
        let mut datagram = b"\x80\xC9\x00\x01\x11\x22\x33\x44".to_vec();
        datagram.extend(b"\x81\xCA\x00\x03\x11\x22\x33\x44\x01\x03a@b\x00\x00\x00");
        for more in [203, 205, 201, 206, 203, 0] {
            let (mut at, mut walked) = (0, Vec::new());
            while let Ok(step) = rtcp_walk_step(&datagram, at).done() {
                let bytes = part(&datagram, step.offset, step.len);
                walked.push((step.packet_type as u8, step.count as u8, bytes));
                at = step.at;
            }
            let compound = Compound::parse(&datagram).expect("a datagram");
            assert_eq!(compound.n_packets(), walked.len());
            let read = compound.map(|packet| {
                let packet = packet.expect("a packet");
                assert_eq!(Packet::parse(packet.bytes()), Ok(packet));
                (packet.type_(), packet.count(), packet.bytes())
            });
            assert_eq!(read.collect::<Vec<_>>(), walked);
            datagram.extend([0x80, more, 0, 1, 0, 0, 0, 0]);
        }
    }

    #[test]
    fn a_packet_of_a_datagram_is_what_its_bytes_are_alone() {
        let datagram = b"\
            \x81\xC8\x00\x0D\x00\x00\x00\x01\x02\x03\x04\x05\x06\x07\x08\x09\x0A\x0B\x0C\x0D\x0E\x0F\x10\x11\x12\x13\x14\x15\
            \x16\x17\x18\x19\x1A\x1B\x1C\x1D\x1E\x1F\x20\x21\x22\x23\x24\x25\x26\x27\x28\x29\x2A\x2B\x2C\x2Dexts\
            \x80\xC9\x00\x02\x00\x00\x00\x02more\
            \x82\xCA\x00\x04\x00\x00\x00\x03\x01\x01a\x00\x00\x00\x00\x04\x00\x00\x00\x00\
            \x81\xCB\x00\x03\x00\x00\x00\x05\x02bytail\x00\
            \x81\xCB\x00\x01\x00\x00\x00\x06\
            \xA5\xCC\x00\x04\x00\x00\x00\x07namedata\x00\x00\x00\x04";
        let compound = Compound::parse(datagram).expect("a datagram");
        assert_eq!(compound.n_packets(), 6);
        let packets: Vec<Packet> = compound.map(|packet| packet.expect("a packet")).collect();
        let kinds: Vec<u8> = packets.iter().map(|packet| packet.type_()).collect();
        assert_eq!(kinds, [200, 201, 202, 203, 203, 204]);
        for packet in packets {
            assert_eq!(Packet::parse(packet.bytes()), Ok(packet));
        }
    }
}
