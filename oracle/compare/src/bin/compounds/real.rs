//! Real datagrams. A lone SR gets 8; every other is accepted, with as many
//! packets as its headers say.

use compare::captures::{captures, Capture};
use compare::library::Library;
use compare::operation::Operation;
use compare::side::{Model, Side};
use library::guard;
use library::*;

pub fn run() -> bool {
    let Some(captures) = captures() else {
        println!("no real datagrams: their folder is not there (RTCP_CAPTURES)");
        return true;
    };
    let mut accepted = 0;
    let mut differences = 0;
    for capture in &captures {
        accepted += usize::from(wanted(&capture.bytes).number == 0);
        if let Err(difference) = check(capture) {
            println!("difference: {}: {difference}", capture.name);
            differences += 1;
        }
    }
    println!(
        "{} real datagrams: {accepted} accepted, {} refused with 8, {differences} differences",
        captures.len(),
        captures.len() - accepted
    );
    differences == 0
}

fn wanted(bytes: &[u8]) -> RtcpCompound {
    let lone_report = headers(bytes) == 1 && bytes[1] == 200;
    RtcpCompound {
        number: if lone_report { 8 } else { 0 },
        n_packets: if lone_report { 0 } else { headers(bytes) },
        ..RtcpCompound::default()
    }
}

/// The number of headers, by their length fields.
fn headers(bytes: &[u8]) -> u64 {
    let mut rest = bytes;
    let mut count = 0;
    while let [_, _, high, low, ..] = rest {
        let length = 4 * (usize::from(u16::from_be_bytes([*high, *low])) + 1);
        rest = rest.get(length..).unwrap_or_default();
        count += 1;
    }
    count
}

fn check(capture: &Capture) -> Result<(), String> {
    let wanted = wanted(&capture.bytes);
    let got = rtcp_compound_parse(&capture.bytes);
    if got != Some(wanted) {
        return Err(format!("{got:?}, wanted {wanted:?}"));
    }
    let reading = Operation::ReadCompound(capture.bytes.clone());
    let library = Library(guard::Side::End).view(&reading);
    let model = Model.view(&reading);
    match (&library, &model) {
        (Some(view), Some(wanted)) if view.agrees(wanted) => Ok(()),
        _ => Err(format!("{library:?}, wanted {model:?}")),
    }
}
