//! Order 2 of document 02, "Names for a whole stage": which chunk of an SDES packet
//! names each source of a list.

use crate::packet::*;
use crate::read::read_as;
use crate::refusal::{Answer, Refusal};

/// The answer for none, as include/rtcp.h has it; any other is a chunk's index.
pub const NO_CHUNK: u8 = 255;

/// Puts an answer for each SSRC of the list at the start of the buffer, in the
/// list's order, and gives the most chunks that can be visited for that. This is all
/// that is fixed of how many are.
pub fn look_up(bytes: &[u8], ssrcs: &[u32], answers: &mut [u8]) -> Answer<u64> {
    if ssrcs.len() > answers.len() {
        return Err(Refusal::LIST_TOO_LONG);
    }
    let packet = read_as(Kind::Sdes, bytes)?;
    for (answer, ssrc) in answers.iter_mut().zip(ssrcs) {
        *answer = first_chunk(&packet, *ssrc).map_or(NO_CHUNK, |index| index as u8);
    }
    Ok(packet.low_bits() as u64)
}

/// The index of the first chunk with that SSRC and a CNAME in it.
fn first_chunk(packet: &Packet, ssrc: u32) -> Option<usize> {
    let Content::Sdes { chunks } = &packet.content else {
        return None;
    };
    let names = |chunk: &Chunk| chunk.ssrc == ssrc && chunk.has_cname();
    chunks.iter().position(names)
}
