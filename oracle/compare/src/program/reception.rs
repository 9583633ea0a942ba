//! Rows of reception figures, which have no bytes:
//!
//! - `reception_new SEQ`: the ten numbers of the state.
//! - `reception_update`, the ten numbers of a state, SEQ TIMESTAMP ARRIVAL: the state
//!   after it, and whether the packet is accepted.
//! - `reception_report_block`, the ten numbers of a state, SSRC LAST_SR DELAY: the
//!   state after it, whether the source is in probation, and every number of the block.
//! - `reception_history END FIRST`, then up to the place END among the row's numbers
//!   events of four: 0 and the three of a packet, or 1 and the three of a block. The
//!   answer is whether each packet is accepted, whether the source is in probation at
//!   each block with the seven numbers of it, and at the end the state.

use super::Row;
use crate::operation::Operation;
use crate::reception::HEAD;
use crate::view::View;
use model::{Event, Reception};

const NEW: &str = "reception_new";
const UPDATE: &str = "reception_update";
const BLOCK: &str = "reception_report_block";
const HISTORY: &str = "reception_history";

/// The numbers of a state, and the place of those that come after it.
const STATE: usize = 10;

/// Whether a row is of reception figures.
pub fn is_reception(function: &str) -> bool {
    [NEW, UPDATE, BLOCK, HISTORY].contains(&function)
}

pub(super) fn operation(row: &Row) -> Operation {
    match &row.function[..] {
        NEW => Operation::NewReception(row.number(0)),
        UPDATE => Operation::Receive(state(row), packet(row, STATE)),
        BLOCK => Operation::Receive(state(row), block(row, STATE)),
        _ => {
            let end: usize = row.number(0);
            let events = (2..end).step_by(4).map(|at| match row.numbers[at] {
                0 => packet(row, at + 1),
                _ => block(row, at + 1),
            });
            Operation::History(row.number(1), events.collect())
        }
    }
}

fn state(row: &Row) -> Reception {
    Reception {
        max_seq: row.number(0),
        cycles: row.number(1),
        base_seq: row.number(2),
        bad_seq: row.number(3),
        probation: row.number(4),
        received: row.number(5),
        expected_prior: row.number(6),
        received_prior: row.number(7),
        transit: row.number(8),
        jitter: row.number(9),
    }
}

fn packet(row: &Row, at: usize) -> Event {
    Event::Packet {
        seq: row.number(at),
        timestamp: row.number(at + 1),
        arrival: row.number(at + 2),
    }
}

fn block(row: &Row, at: usize) -> Event {
    Event::Block {
        ssrc: row.number(at),
        last_sr: row.number(at + 1),
        delay: row.number(at + 2),
    }
}

/// The row, or nothing where the operation is another.
pub(super) fn input(operation: &Operation) -> Option<Row> {
    Some(match operation {
        Operation::NewReception(seq) => Row::new(NEW, &[(*seq).into()], &[]),
        Operation::Receive(state, event) => {
            let [kind, rest @ ..] = numbers(event);
            let function = if kind == 0 { UPDATE } else { BLOCK };
            let state = state.numbers().map(u64::from);
            Row::new(function, &[&state[..], &rest].concat(), &[])
        }
        Operation::History(first, events) => {
            let events: Vec<u64> = events.iter().flat_map(numbers).collect();
            let head = [2 + events.len() as u64, (*first).into()];
            Row::new(HISTORY, &[&head[..], &events].concat(), &[])
        }
        _ => return None,
    })
}

/// An event in a history.
fn numbers(event: &Event) -> [u64; 4] {
    match *event {
        Event::Packet {
            seq,
            timestamp,
            arrival,
        } => [0, seq.into(), timestamp.into(), arrival.into()],
        Event::Block {
            ssrc,
            last_sr,
            delay,
        } => [1, ssrc.into(), last_sr.into(), delay.into()],
    }
}

/// What a view shows, as the program writes it. A history leaves out what every result
/// of C starts with.
pub(super) fn answer_of(operation: &Operation, view: &View) -> String {
    let history = matches!(operation, Operation::History(..));
    let shown = view
        .fields
        .iter()
        .filter(|(name, _)| !(history && HEAD.contains(name)));
    shown.map(|(_, value)| format!(" {value}")).collect()
}
