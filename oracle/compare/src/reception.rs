//! What the reception figures of a source show: a reply in the numbers of the C
//! results, and the view of it.

use crate::operation::Operation;
use crate::view::View;
use model::{Reception, Reply};

const STATE: [&str; 10] = [
    "max_seq",
    "cycles",
    "base_seq",
    "bad_seq",
    "probation",
    "received",
    "expected_prior",
    "received_prior",
    "transit",
    "jitter",
];

/// What every result of C starts with. A block has it too, and is never refused.
pub const HEAD: [&str; 3] = ["number", "first", "second"];

const BLOCK: [&str; 7] = [
    "block_ssrc",
    "fraction_lost",
    "cumulative_lost",
    "extended_sequence",
    "jitter",
    "last_sr",
    "delay",
];

/// The numbers of a C result after the state: whether a packet is accepted; or
/// whether there is no block, and the numbers of the block, which are 0 then.
pub fn numbers(reply: &Reply) -> Vec<i128> {
    match reply {
        Reply::Packet(accepted) => vec![i128::from(*accepted)],
        Reply::Block(block) => {
            let mut numbers = vec![i128::from(block.is_none()), 0, 0, 0];
            numbers.extend(block.unwrap_or_default().numbers().map(i128::from));
            numbers
        }
    }
}

/// The numbers of a reply by their names.
fn named(reply: &[i128]) -> Vec<(&'static str, i128)> {
    let names = match reply {
        [_] => vec!["accepted"],
        _ => [&["in_probation"][..], &HEAD, &BLOCK].concat(),
    };
    names.into_iter().zip(reply.iter().copied()).collect()
}

/// The state after an event and then the reply; of a history every reply and then the
/// state at the end.
pub fn received(operation: &Operation, replies: &[Vec<i128>], state: &Reception) -> View {
    let state = STATE.into_iter().zip(state.numbers().map(i128::from));
    let replies = replies.iter().flat_map(|reply| named(reply));
    let shown: Vec<(&str, i128)> = match operation {
        Operation::History(..) => replies.chain(state).collect(),
        _ => state.chain(replies).collect(),
    };
    let mut view = View::accepted();
    for (name, number) in shown {
        view.number(name, number);
    }
    view
}
