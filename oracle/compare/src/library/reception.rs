//! The reception figures of a source.

use crate::operation::Operation;
use crate::reception::received;
use crate::view::View;
use library::*;
use model::{Event, Reception};
use std::slice::from_ref;

/// A state as one struct, from the same state as another.
macro_rules! state {
    ($struct:ident of $state:expr) => {
        $struct {
            max_seq: $state.max_seq,
            cycles: $state.cycles,
            base_seq: $state.base_seq,
            bad_seq: $state.bad_seq,
            probation: $state.probation,
            received: $state.received,
            expected_prior: $state.expected_prior,
            received_prior: $state.received_prior,
            transit: $state.transit,
            jitter: $state.jitter,
        }
    };
}

pub(super) fn view(operation: &Operation) -> Option<View> {
    let (mut state, events) = match operation {
        Operation::NewReception(seq) => (new_reception(*seq)?, &[][..]),
        Operation::Receive(before, event) => (*before, from_ref(event)),
        Operation::History(first, events) => (new_reception(*first)?, &events[..]),
        _ => return None,
    };
    let mut replies = Vec::new();
    for event in events {
        let (after, reply) = take(&state, *event)?;
        state = after;
        replies.push(reply);
    }
    Some(received(operation, &replies, &state))
}

/// The state that C sets up.
pub fn new_reception(seq: u16) -> Option<Reception> {
    let new = rtcp_reception_new(seq)?;
    Some(state!(Reception of new))
}

/// The state that C gives after an event, and the other numbers of its result.
pub fn take(before: &Reception, event: Event) -> Option<(Reception, Vec<i128>)> {
    let before = state!(RtcpReception of before);
    Some(match event {
        Event::Packet {
            seq,
            timestamp,
            arrival,
        } => {
            let after = rtcp_reception_update(before, seq, timestamp, arrival)?;
            let reply = vec![after.accepted.into()];
            (state!(Reception of after.reception), reply)
        }
        Event::Block {
            ssrc,
            last_sr,
            delay,
        } => {
            let after = rtcp_reception_report_block(before, ssrc, last_sr, delay)?;
            let head = after.block.head();
            let head = [after.in_probation, head.number, head.first, head.second];
            let mut reply = head.map(i128::from).to_vec();
            reply.extend(after.block.fields());
            (state!(Reception of after.reception), reply)
        }
    })
}
