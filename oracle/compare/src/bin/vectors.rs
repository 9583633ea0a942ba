//! Prints random vectors.
//!
//!     vectors [text|antt] [COUNT] [SEED]
//!
//! As text a vector is a line of three columns, parted by tabs: the operation
//! with its inputs, what the model gives, and what the Rust gives: `same`, the
//! rows by which it differs, or `-` where it cannot be asked. As antt the
//! vectors are a module of equations between the project's definitions.

use compare::antt;
use compare::generate::{calls, operation, Sort};
use compare::operation::Operation;
use compare::rng::Rng;
use compare::side::{Model, Side};
use compare::text::inputs;

fn main() {
    let mut arguments = std::env::args().skip(1);
    let form = arguments.next().unwrap_or_else(|| "text".to_string());
    let (count, seed) = compare::count_and_seed(&mut arguments, 400);
    let operations = operations(seed).take(count);
    match form.as_str() {
        "text" => operations.for_each(|operation| println!("{}", text(&operation))),
        "antt" => print!("{}", antt::module(operations)),
        _ => panic!("the form is text or antt"),
    }
}

/// Each sort in turn, and after a round of them a list of writer calls.
fn operations(seed: u64) -> impl Iterator<Item = Operation> {
    let mut rng = Rng::new(seed);
    std::iter::repeat_with(move || {
        let mut round: Vec<Operation> = Sort::ALL
            .into_iter()
            .map(|sort| operation(&mut rng, sort))
            .collect();
        round.extend(calls(&mut rng));
        round
    })
    .flatten()
}

fn text(operation: &Operation) -> String {
    let model = Model
        .view(operation)
        .expect("the model has every operation");
    format!("{}\t{model}\t{}", inputs(operation), rust(operation))
}

#[cfg(rtcp_types)]
fn rust(operation: &Operation) -> String {
    use compare::rows::{explain, Rows};

    match compare::rust::Rust.view(operation) {
        None => "-".to_string(),
        Some(view) => match explain(operation, &view) {
            Some(Rows::NONE) => "same".to_string(),
            Some(rows) => format!("rows {rows}"),
            None => "differs without a row".to_string(),
        },
    }
}

#[cfg(not(rtcp_types))]
fn rust(_: &Operation) -> String {
    "-".to_string()
}
