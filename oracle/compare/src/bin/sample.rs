//! Prints a sample of the Rust's answers, for a program to replay with no Rust at
//! hand.
//!
//!     sample inputs|answers|write-inputs|write-answers [COUNT] [SEED]
//!
//! The last two forms are of rows for writing, the others of readings. An input is a
//! line `NAME ROW`, an answer a line `NAME: ANSWER`, as `compare::program` has them;
//! both lists have the same names in the same order.
//!
//! A name that starts with `rust` says that the answer is the Rust's; what the
//! Rust has no accessor for (extension, tail and padding bytes, the size of a lone
//! chunk or item) is the model's. A loss below zero is given to the Rust as its 24
//! bits.
//! A name that starts with `row` and numbers says that the Rust differs by these
//! rows, and that the answer is the model's.
//!
//! Inputs are drawn at random and put into classes by function, refusal and rows.
//! The classes are gone through in turn until the sample is full, so that rare
//! ones are in it too: nine steps of walks and nine writes that are done, else
//! three where the answer is the Rust's and one where it is not. A step's answer is put together from the chunks
//! and items that the Rust shows.

#[cfg(rtcp_types)]
use compare::sample::{lines, READING, WRITING};

#[cfg(not(rtcp_types))]
fn main() {
    println!("no sample of the Rust: its sources are not there (RTCP_TYPES_SRC)");
}

#[cfg(rtcp_types)]
fn main() {
    let mut arguments = std::env::args().skip(1);
    let form = arguments.next().unwrap_or_default();
    let (count, seed) = compare::count_and_seed(&mut arguments, 600);
    let (sorts, form) = match form.strip_prefix("write-") {
        Some(form) => (&WRITING[..], form),
        None => (&READING[..], form.as_str()),
    };
    for line in lines(sorts, count, seed) {
        match form {
            "inputs" => println!("{} {}", line.name, line.input),
            "answers" => println!("{}:{}", line.name, line.answer),
            _ => panic!("the form is inputs or answers, for writing with write- before it"),
        }
    }
}
