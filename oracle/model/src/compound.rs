//! "Compounds": reading a datagram.

use crate::packet::*;
use crate::read::{has_p, read_as, read_unknown, stated_length, version};
use crate::refusal::{Answer, Refusal};

/// The packet at a position, and the position after it. The packet at
/// position 0 is the first.
pub(crate) fn packet_at(bytes: &[u8], position: usize) -> Answer<(Packet, usize)> {
    let rest = &bytes[position..];
    let left = rest.len();
    if left < 4 {
        return Err(Refusal::truncated(4, left));
    }
    if version(rest[0]) != 2 {
        return Err(Refusal::unsupported_version(version(rest[0])));
    }
    let stated = stated_length(rest);
    if stated > left {
        return Err(Refusal::truncated(stated, left));
    }
    if has_p(rest[0]) && stated < left {
        return Err(Refusal::NON_LAST_PADDED);
    }
    let kind = Kind::of_type(rest[1]);
    if position == 0 && !kind.is_some_and(Kind::is_report) {
        return Err(Refusal::first_is_no_report(rest[1]));
    }
    let packet = match kind {
        Some(kind) => read_as(kind, &rest[..stated])?,
        None => read_unknown(&rest[..stated])?,
    };
    Ok((packet, position + stated))
}

/// The packets of a datagram.
pub fn read_compound(bytes: &[u8]) -> Answer<Vec<Packet>> {
    let mut packets = Vec::new();
    let mut position = 0;
    while packets.is_empty() || position < bytes.len() {
        let (packet, next) = packet_at(bytes, position)?;
        packets.push(packet);
        position = next;
    }
    if !packets.iter().any(Packet::has_cname) {
        return Err(Refusal::NO_CNAME_READ);
    }
    Ok(packets)
}
