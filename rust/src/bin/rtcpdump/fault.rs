//! Where the fault of a refused datagram is. That it is refused, and by which
//! number, the library says; here its place is found, by asking the library
//! about the parts.

use crate::rules::{self, Rule};
use bokyjave::prelude::*;
use bokyjave::{
    App, Bye, Compound, Packet, ReceiverReport, RtcpParseError, Sdes, SdesChunk, SdesItem,
    SenderReport,
};

/// Why a datagram is refused, and where.
pub struct Fault {
    pub error: RtcpParseError,
    /// The packet that fails; none where the datagram as a whole does.
    pub packet: Option<Failed>,
    pub text: &'static str,
    pub rule: &'static Rule,
}

/// The packet that fails.
pub struct Failed {
    /// Its number in the datagram, from 1.
    pub number: usize,
    /// Its offset in the datagram.
    pub offset: usize,
    /// Where in the packet the fault is; at its end where a byte is missing.
    pub at: usize,
}

/// A place in the packet, what is wrong there, and the rule.
type Place = (usize, &'static str, &'static Rule);

/// An RR and an SDES packet with a CNAME: before packets that are accepted one
/// by one, they make a datagram that is accepted.
const START: &[u8] = b"\x80\xC9\x00\x01\0\0\0\0\x81\xCA\x00\x02\0\0\0\0\x01\x01a\x00";

/// A datagram of these packets, which are accepted one by one.
pub fn with_start(packets: &[u8]) -> Vec<u8> {
    [START, packets].concat()
}

/// The packets of a datagram that [`with_start`] made.
pub fn after_start(datagram: &[u8]) -> Vec<Packet<'_>> {
    let packets = Compound::parse(datagram).into_iter().flatten();
    packets.skip(2).filter_map(Result::ok).collect()
}

impl Fault {
    /// The fault of a datagram that was refused, and how many of its bytes are
    /// packets before it.
    pub fn of(data: &[u8], error: RtcpParseError) -> (Self, usize) {
        let (count, offset) = accepted(data);
        let whole = (
            0,
            "a datagram in which no SDES chunk has a CNAME",
            &rules::CNAME,
        );
        let is_whole = error == RtcpParseError::NoCname;
        let (at, text, rule) = match is_whole {
            true => whole,
            false => place(&data[offset..], &error),
        };
        let packet = (!is_whole).then_some(Failed {
            number: count + 1,
            offset,
            at,
        });
        let fault = Fault {
            error,
            packet,
            text,
            rule,
        };
        (fault, offset)
    }

    /// The number and its details, as the library names them.
    pub fn details(&self) -> String {
        let text = self.error.to_string();
        let at = text.rfind("(refusal").unwrap_or(0);
        text[at..].into()
    }
}

/// The length that a header states, where there is one.
fn stated(packet: &[u8]) -> Option<usize> {
    let field = [*packet.get(2)?, *packet.get(3)?];
    Some(4 * (1 + usize::from(u16::from_be_bytes(field))))
}

fn is_padded(packet: &[u8]) -> bool {
    packet[0] & 0x20 != 0
}

/// How many packets are accepted before the first that is not, and their length.
fn accepted(data: &[u8]) -> (usize, usize) {
    let (mut count, mut at) = (0, 0);
    while let Some(packet) = stated(&data[at..]).and_then(|len| data[at..].get(..len)) {
        let is_last = at + packet.len() == data.len();
        let is_report = matches!(
            packet[1],
            SenderReport::PACKET_TYPE | ReceiverReport::PACKET_TYPE
        );
        let is_misplaced = is_padded(packet) && !is_last || at == 0 && !is_report;
        if is_misplaced || Compound::parse(&with_start(packet)).is_err() {
            break;
        }
        (count, at) = (count + 1, at + packet.len());
    }
    (count, at)
}

/// The fault of the packet at the start of the bytes.
fn place(rest: &[u8], error: &RtcpParseError) -> Place {
    match error {
        RtcpParseError::UnsupportedVersion(_) => (
            0,
            "a packet whose first two bits are not 2",
            &rules::VERSION,
        ),
        RtcpParseError::FirstPacketNoReport(_) => (
            1,
            "a datagram that does not begin with SR or RR",
            &rules::FIRST,
        ),
        RtcpParseError::NonLastCompoundPacketPadding => (
            0,
            "a datagram in which a packet before the last is padded",
            &rules::LAST_PADDED,
        ),
        _ => match stated(rest) {
            None => (
                rest.len(),
                "a datagram that ends inside the header of a packet",
                &rules::LENGTH,
            ),
            Some(len) => match rest.get(..len) {
                Some(packet) => in_packet(packet, error),
                None => (
                    2,
                    "a packet whose length field says more bytes than the datagram has",
                    &rules::LENGTH,
                ),
            },
        },
    }
}

/// The fault of a packet that is there whole.
fn in_packet(packet: &[u8], error: &RtcpParseError) -> Place {
    if *error == RtcpParseError::InvalidPadding {
        return padding(packet);
    }
    let least = match packet[1] {
        SenderReport::PACKET_TYPE => SenderReport::MIN_PACKET_LEN,
        ReceiverReport::PACKET_TYPE => ReceiverReport::MIN_PACKET_LEN,
        App::PACKET_TYPE => App::MIN_PACKET_LEN,
        _ => 4,
    };
    if packet.len() < least {
        let text = "a packet whose length field says fewer bytes than its type needs";
        return (2, text, &rules::LENGTH);
    }
    let padding = match is_padded(packet) {
        true => usize::from(packet[packet.len() - 1]),
        false => 0,
    };
    let body = &packet[..packet.len().saturating_sub(padding)];
    match packet[1] {
        Sdes::PACKET_TYPE => in_sdes(body),
        Bye::PACKET_TYPE => in_bye(body),
        _ => (
            0,
            "a report that counts more blocks than it has",
            &rules::BLOCKS,
        ),
    }
}

fn padding(packet: &[u8]) -> Place {
    let at = packet.len() - 1;
    let text = match packet[at] {
        0 => "a packet with the padding bit and a padding count of 0",
        count if count % 4 != 0 => "a packet whose padding count is no multiple of 4",
        _ => "a packet whose padding count is more than the packet has",
    };
    (at, text, &rules::PADDING)
}

fn in_bye(body: &[u8]) -> Place {
    let sources_end = 4 + 4 * usize::from(body[0] & 31);
    if sources_end > body.len() {
        let text = "a BYE that counts more sources than it has";
        return (0, text, &rules::SOURCES);
    }
    let text = "a BYE whose reason is longer than the packet";
    (sources_end, text, &rules::REASON)
}

fn in_sdes(body: &[u8]) -> Place {
    let mut at = 4;
    for _ in 0..body[0] & 31 {
        let rest = body.get(at..).unwrap_or_default();
        match SdesChunk::parse(rest) {
            Ok(chunk) => at += chunk.length(),
            Err(_) if rest.len() < 4 => {
                let text = "an SDES that counts more chunks than it has";
                return (0, text, &rules::CHUNKS);
            }
            Err(_) => {
                let (in_chunk, text, rule) = in_chunk(rest);
                return (at + in_chunk, text, rule);
            }
        }
    }
    (at, "an SDES with bytes after its chunks", &rules::CHUNKS)
}

fn in_chunk(chunk: &[u8]) -> Place {
    let mut at = 4;
    while at < chunk.len() && chunk[at] != 0 {
        match SdesItem::parse(&chunk[at..]) {
            Ok(item) => at += 2 + item.length(),
            Err(error) => {
                let (in_item, text, rule) = in_item(&chunk[at..], &error);
                return (at + in_item, text, rule);
            }
        }
    }
    match chunk[at.min(chunk.len())..].iter().position(|it| *it != 0) {
        Some(place) if at + place < at / 4 * 4 + 4 => (
            at + place,
            "a chunk with a byte other than 0 between its closing zero and the word boundary",
            &rules::FILL,
        ),
        _ => (
            chunk.len(),
            "a chunk that ends without a closing zero",
            &rules::CHUNK_END,
        ),
    }
}

fn in_item(item: &[u8], error: &RtcpParseError) -> Place {
    match (error, item) {
        (RtcpParseError::SdesPrivPrefixTooLarge { .. }, _) => (
            2,
            "a PRIV item whose prefix is longer than the item",
            &rules::PREFIX,
        ),
        (_, [SdesItem::PRIV, 0, ..]) => (
            1,
            "a PRIV item without the length of its prefix",
            &rules::PREFIX,
        ),
        (_, [_]) => (1, "an item of which only the type is there", &rules::ITEM),
        _ => (
            1,
            "an item that says it is longer than its packet",
            &rules::ITEM,
        ),
    }
}
