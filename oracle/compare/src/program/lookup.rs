//! Rows that look up: `sdes_lookup LEN END`, then the SSRCs. The answers' buffer has
//! LEN bytes, the list ends at the place END among the row's numbers, and the bytes
//! are the packet.
//!
//! The answer is the refusal or three zeros, whether no more chunks were visited than
//! the packet's low five bits say (1, else 0), and the buffer.

use super::read::refused;
use super::write::put_list;
use super::{run, shown, Row};
use crate::generate::STALE;
use crate::operation::Operation;
use crate::view::{Value, Verdict, View};

const FUNCTION: &str = "sdes_lookup";

/// Whether a row looks up.
pub fn is_lookup(function: &str) -> bool {
    function == FUNCTION
}

/// The row but for the buffer's length.
pub(super) fn input(bytes: &[u8], ssrcs: &[u32]) -> Row {
    let mut row = Row::new(FUNCTION, &[0, 0], bytes);
    put_list(&mut row, 1, ssrcs);
    row
}

pub(super) fn operation(row: &Row) -> Operation {
    let ssrcs = row.list(2, row.number(1));
    Operation::LookUp(row.bytes.clone(), ssrcs, vec![STALE; row.number(0)])
}

/// What a view of a lookup in these bytes shows, as the program writes it.
pub(super) fn answer_of(bytes: &[u8], view: &View) -> String {
    let Some((("answers", Value::Bytes(answers)), rest)) = view.fields.split_last() else {
        panic!("answers, not {view}");
    };
    let (head, visits) = match (&view.verdict, rest) {
        (Verdict::Refused(refusal), []) => (refused(refusal), 0),
        (Verdict::Accepted, [("visits", Value::Number(visits) | Value::AtMost(visits))]) => {
            ([0; 3], *visits)
        }
        _ => panic!("an answer, not {view}"),
    };
    let low = bytes.first().map_or(0, |first| first % 32);
    let bounded = u64::from(visits <= i128::from(low));
    format!("{}{} {}", shown(&head), shown(&[bounded]), run(answers))
}
