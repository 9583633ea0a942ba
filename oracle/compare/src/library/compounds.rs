//! Datagrams and the walk over them.

use super::reading::read_as;
use super::{broken, part, part_of, shown, walked};
use crate::view::{Value, View};
use library::*;
use model::Kind;
use std::cmp::min;

pub(super) fn read_compound(s: &[u8]) -> Option<View> {
    let compound = rtcp_compound_parse(s)?;
    let open = rtcp_walk_open(s)?;
    let mut view = shown(compound, |view| view.number("packets", compound.n_packets));
    if compound.head() != open.head() {
        broken(&mut view, "a walk that opens otherwise");
    }
    if compound.number != 0 {
        return Some(view);
    }
    let mut at = open.at;
    // A packet has 4 bytes at least.
    for _ in 0..min(compound.n_packets, s.len() as u64 / 4) {
        let step = rtcp_walk_step(s, at)?;
        if step.number != 0 {
            broken(&mut view, "a walk that ends early");
            return Some(view);
        }
        show_step(&mut view, s, at, &step)?;
        at = step.at;
    }
    if rtcp_walk_step(s, at)?.number != 25 {
        broken(&mut view, "a walk that ends late");
    }
    Some(view)
}

pub(super) fn step(s: &[u8], at: u64) -> Option<View> {
    let step = rtcp_walk_step(s, at)?;
    let mut view = walked(step, |kept| kept.at = at, |_| {});
    if step.number == 0 {
        show_step(&mut view, s, at, &step)?;
        view.number("position", step.at);
    }
    Some(view)
}

/// A packet of a datagram is shown by its own reading, which the step's fields
/// must repeat.
fn show_step(view: &mut View, s: &[u8], at: u64, step: &RtcpStep) -> Option<()> {
    let mut wanted = RtcpStep {
        kind: step.kind,
        packet_type: step.packet_type,
        count: step.count,
        offset: at,
        len: step.len,
        body: step.len.wrapping_sub(step.padding_len),
        padding_len: step.padding_len,
        at: at.wrapping_add(step.len),
        ..RtcpStep::default()
    };
    let Some(packet) = part_of(s, step.offset, step.len) else {
        broken(view, "a packet past the bytes");
        return Some(());
    };
    let kind = Kind::ALL
        .into_iter()
        .find(|kind| u64::from(kind.packet_type()) == step.kind);
    match kind {
        Some(kind) => {
            view.fields.extend(read_as(kind, packet)?.fields);
            repeat(&mut wanted, kind, packet)?;
        }
        None => {
            view.number("type", step.packet_type);
            view.number("low", step.count);
            view.number("length", step.len);
            match step.padding_len {
                0 => view.put("padding", Value::Nothing),
                count => view.number("padding", count),
            }
            part(view, "body", packet, 4, step.body.wrapping_sub(4));
            part(view, "padding_bytes", packet, step.body, step.padding_len);
            wanted.kind = 0;
        }
    }
    let header = [step.packet_type, step.count];
    if header != [packet[1].into(), (packet[0] & 31).into()] || *step != wanted {
        broken(view, "a step that says otherwise");
    }
    Some(())
}

/// Places in the packet are counted from its start, as in its own reading.
fn repeat(wanted: &mut RtcpStep, kind: Kind, packet: &[u8]) -> Option<()> {
    wanted.kind = kind.packet_type().into();
    match kind {
        Kind::Sr => {
            let sr = rtcp_sr_parse(packet)?;
            wanted.ssrc = sr.ssrc;
            wanted.ntp_timestamp = sr.ntp_timestamp;
            wanted.rtp_timestamp = sr.rtp_timestamp;
            wanted.packet_count = sr.packet_count;
            wanted.octet_count = sr.octet_count;
            wanted.extension = sr.extension;
        }
        Kind::Rr => {
            let rr = rtcp_rr_parse(packet)?;
            wanted.ssrc = rr.ssrc;
            wanted.extension = rr.extension;
        }
        Kind::App => wanted.ssrc = rtcp_app_parse(packet)?.ssrc,
        Kind::Bye => {
            let bye = rtcp_bye_parse(packet)?;
            wanted.has_reason = bye.has_reason;
            wanted.reason = bye.reason;
            wanted.reason_len = bye.reason_len;
        }
        Kind::Sdes => wanted.has_cname = rtcp_sdes_parse(packet)?.has_cname,
    }
    Some(())
}
