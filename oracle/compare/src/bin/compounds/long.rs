//! Long datagrams: written by the writer's calls, read, and walked over. How the
//! instructions grow with the length is counted by `bench/run --check`.

use compare::library::Library;
use compare::operation::Operation;
use compare::side::{Model, Side as _};
use library::guard::{Guarded, Side};
use library::*;

/// Packets in a datagram, by fours: SR, SDES, APP, BYE.
const LENGTHS: [usize; 4] = [1_000, 10_000, 100_000, 400_000];

pub fn run() -> bool {
    LENGTHS.iter().all(|packets| match bytes(*packets) {
        Some(length) => {
            println!("{packets} packets, {length} bytes: written, read, walked over");
            true
        }
        None => {
            println!("difference: a datagram of {packets} packets");
            false
        }
    })
}

/// The length of such a datagram; nothing where an answer is wrong.
fn bytes(packets: usize) -> Option<usize> {
    let mut buf = Guarded::new(&vec![0x5A; 40 * packets], Side::End);
    let length = write(&mut buf, packets)?;
    read(&buf[..length], packets)?;
    walk(&buf[..length], packets)?;
    same_as_model(&buf[..length])?;
    Some(length)
}

/// Every field of every packet is what the model says.
fn same_as_model(s: &[u8]) -> Option<()> {
    let reading = Operation::ReadCompound(s.to_vec());
    let view = Library(Side::End).view(&reading)?;
    view.agrees(&Model.view(&reading)?).then_some(())
}

fn write(buf: &mut [u8], packets: usize) -> Option<usize> {
    let mut state = RtcpWriter::default();
    let writer = &mut state;
    rtcp_writer_new(writer)?;
    for i in 0..packets {
        let ssrc = i as u32;
        let call = match i % 4 {
            0 => rtcp_writer_add_sr(writer, buf, ssrc, 1, 2, 3, 4, &[], &[], &[], 0),
            1 => rtcp_writer_add_sdes(writer, buf, &[ssrc], &[1], &[1], &[0], &[3], b"a@b", 0),
            2 => rtcp_writer_add_app(writer, buf, 1, ssrc, b"name", b"data", 0),
            _ => rtcp_writer_add_bye(writer, buf, &[ssrc], b"ab", 0),
        }?;
        if call.number != 0 {
            return None;
        }
    }
    let closed = rtcp_writer_close(writer)?;
    (closed.number == 0).then_some(state.length as usize)
}

fn read(s: &[u8], packets: usize) -> Option<()> {
    let wanted = RtcpCompound {
        n_packets: packets as u64,
        ..RtcpCompound::default()
    };
    (rtcp_compound_parse(s)? == wanted).then_some(())
}

/// Each packet in order, with its kind and its SSRC where the step has one, and
/// then nothing left.
fn walk(s: &[u8], packets: usize) -> Option<()> {
    let mut at = 0;
    for i in 0..packets {
        let step = rtcp_walk_step(s, at)?;
        let kind = [200, 202, 204, 203][i % 4];
        let ssrc = if kind % 4 == 0 { i as u64 } else { 0 };
        let there = (step.number, step.kind, step.ssrc, step.offset);
        if there != (0, kind, ssrc, at) {
            return None;
        }
        at = step.at;
    }
    let last = rtcp_walk_step(s, at)?;
    let wanted = (25, s.len() as u64, s.len() as u64);
    ((last.number, last.at, at) == wanted).then_some(())
}
