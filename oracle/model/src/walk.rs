//! Walks: one packet, chunk or item a step, from any position over any bytes.

use crate::compound::{packet_at, read_compound};
use crate::packet::*;
use crate::read::{read_as, read_chunk, read_item};
use crate::refusal::{Answer, Refusal};

/// An SDES step looks at no byte from here on.
pub const SDES_LIMIT: usize = 262_144;

/// A walk over a datagram: the position of its first step.
pub fn open(bytes: &[u8]) -> Answer<u64> {
    read_compound(bytes)?;
    Ok(0)
}

/// The packet at the position, and the position after it.
pub fn step(bytes: &[u8], position: u64) -> Answer<(Packet, u64)> {
    let at = inside(position, bytes.len())?;
    let (packet, next) = packet_at(bytes, at)?;
    Ok((packet, next as u64))
}

fn inside(position: u64, end: usize) -> Answer<usize> {
    match usize::try_from(position) {
        Ok(at) if at < end => Ok(at),
        _ => Err(Refusal::NOTHING_LEFT),
    }
}

/// A walk over an SDES packet: where the next chunk starts, and the end of the
/// body that the walk was opened on.
#[derive(Clone, Copy, Debug, PartialEq, Eq, Hash)]
pub struct SdesWalk {
    pub position: u64,
    pub end: u64,
}

pub fn open_sdes(bytes: &[u8]) -> Answer<SdesWalk> {
    let packet = read_as(Kind::Sdes, bytes)?;
    Ok(SdesWalk {
        position: 4,
        end: (bytes.len() - packet.padding.len()) as u64,
    })
}

/// The chunk at the walk's position, and the walk after it.
pub fn sdes_step(bytes: &[u8], walk: SdesWalk) -> Answer<(Chunk, SdesWalk)> {
    let lent = &bytes[..bytes.len().min(SDES_LIMIT)];
    let at = inside(walk.position, lent.len())?;
    if walk.position >= walk.end {
        return Err(Refusal::NOTHING_LEFT);
    }
    let (chunk, occupied) = read_chunk(&lent[at..])?;
    let position = (at + occupied) as u64;
    Ok((chunk, SdesWalk { position, ..walk }))
}

/// A walk over a chunk's items: the position of its first step, counted from
/// the chunk's start.
pub fn open_items(bytes: &[u8]) -> Answer<u64> {
    read_chunk(bytes)?;
    Ok(4)
}

/// The item at the position, and the position after it. A zero byte closes the
/// chunk, so nothing is left there.
pub fn item_step(bytes: &[u8], position: u64) -> Answer<(Item, u64)> {
    let at = inside(position, bytes.len())?;
    if bytes[at] == 0 {
        return Err(Refusal::NOTHING_LEFT);
    }
    let (item, occupied) = read_item(&bytes[at..])?;
    Ok((item, (at + occupied) as u64))
}
