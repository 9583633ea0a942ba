//! Holds the sides against each other on many inputs, and then the compound
//! writer against the book on lists of calls.
//!
//!     compare [SIZE] [SEED] [FILE..]
//!
//! SIZE is the number of inputs, SEED that of the random ones. A FILE has a
//! datagram a line, in hexadecimal after a tab. The exit status is 1 where a
//! difference has no row that explains it, a list of calls differs from the book,
//! or the library touches memory that is not its own.

use compare::calls;
use compare::generate::{operation, sources, Sort};
use compare::library::{about_library, watched, Library};
use compare::limits;
use compare::operation::Operation;
use compare::rng::Rng;
use compare::rows::{explain, Rows, Switched};
use compare::side::{Model, Side};
use compare::text::{from_hex, inputs};
use compare::view::{Verdict, View};
use library::guard;
use model::{Kind, Listing};
use std::collections::BTreeMap;
use std::process::ExitCode;

/// Differences printed in full.
const SHOWN: usize = 20;

/// Inputs from one line of progress to the next.
const PROGRESS: usize = 2_000_000;

/// Inputs for each list of calls.
const PER_LIST: usize = 100;

fn main() -> ExitCode {
    let mut arguments = std::env::args().skip(1);
    let (size, seed) = compare::count_and_seed(&mut arguments, 40_000_000);
    let files: Vec<String> = arguments.collect();

    println!("{}", about_library());
    let mut comparison = Comparison::new();
    if comparison.rust.is_none() {
        println!("no comparison with the Rust: its sources are not there (RTCP_TYPES_SRC)");
        if comparison.equal.is_empty() {
            return ExitCode::SUCCESS;
        }
    }
    for file in &files {
        datagrams(file, &mut |operation| comparison.run(operation));
    }
    enumerated(size / 2, &mut |operation| comparison.run(operation));
    let mut rng = Rng::new(seed);
    while comparison.inputs < size {
        let sort = Sort::any(&mut rng);
        comparison.run(operation(&mut rng, sort));
    }
    comparison.report();
    let booked = !library::present() || calls::run(size / PER_LIST, seed);
    ExitCode::from(u8::from(comparison.unexplained > 0 || !booked))
}

/// The enumerated inputs, thinned out evenly where they are more than wanted.
fn enumerated(wanted: usize, visit: &mut dyn FnMut(Operation)) {
    let mut count = 0usize;
    limits::enumerate(&mut |_| count += 1);
    let stride = count.div_ceil(wanted.max(1)).max(1);
    let mut at = 0;
    limits::enumerate(&mut |operation| {
        if at % stride == 0 {
            visit(operation);
        }
        at += 1;
    });
}

/// Each datagram of a file whole, and by steps from each position in it.
fn datagrams(file: &str, visit: &mut dyn FnMut(Operation)) {
    let text = std::fs::read_to_string(file).expect("FILE can be read");
    for line in text.lines() {
        let bytes = from_hex(line.rsplit('\t').next().unwrap_or_default());
        visit(Operation::ReadCompound(bytes.clone()));
        limits::lists(Listing::Packets, &bytes, visit);
        let mut at = 0;
        while let Ok((_, next)) = model::step(&bytes, at) {
            let packet = bytes[at as usize..next as usize].to_vec();
            visit(Operation::Step(bytes.clone(), at));
            for kind in Kind::ALL {
                visit(Operation::ReadAs(kind, packet.clone()));
            }
            for listing in Listing::ALL {
                limits::lists(listing, &packet, visit);
            }
            limits::look_ups(&packet, &sources(&packet), visit);
            at = next;
        }
    }
}

/// The counts for one sort of operation.
#[derive(Default)]
struct Counts {
    inputs: usize,
    compared: usize,
    /// Held against the other sides that must show what the model shows.
    equal: usize,
    accepted: usize,
    refused: BTreeMap<u8, usize>,
    rows: BTreeMap<Rows, usize>,
}

struct Comparison {
    rust: Option<Box<dyn Side>>,
    /// Sides that must show what the model shows, with no row between them.
    equal: Vec<Box<dyn Side>>,
    inputs: usize,
    compared: usize,
    equal_inputs: usize,
    unexplained: usize,
    counts: BTreeMap<&'static str, Counts>,
}

#[cfg(rtcp_types)]
fn rust() -> Option<Box<dyn Side>> {
    Some(Box::new(compare::rust::Rust))
}

#[cfg(not(rtcp_types))]
fn rust() -> Option<Box<dyn Side>> {
    None
}

fn equal() -> Vec<Box<dyn Side>> {
    if library::present() {
        vec![Box::new(Library(guard::Side::End))]
    } else {
        Vec::new()
    }
}

impl Comparison {
    fn new() -> Self {
        Comparison {
            rust: rust(),
            equal: equal(),
            inputs: 0,
            compared: 0,
            equal_inputs: 0,
            unexplained: 0,
            counts: BTreeMap::new(),
        }
    }

    fn run(&mut self, operation: Operation) {
        let operation = &*watched(operation);
        let model = Model
            .view(operation)
            .expect("the model has every operation");
        let mut differences = Vec::new();
        let shown: Vec<(&str, View)> = self
            .equal
            .iter()
            .filter_map(|side| Some((side.name(), side.view(operation)?)))
            .collect();
        for (name, view) in &shown {
            differences.extend(must_agree(name, view, &model));
        }
        let rust = self.rust.as_ref().and_then(|rust| rust.view(operation));
        let rows = rust.as_ref().map(|rust| {
            for (rows, wanted) in [(Rows::NONE, &model), (Rows::ALL, rust)] {
                let switched = Switched(rows).view(operation);
                differences.extend(switched.and_then(|view| must_agree("rows", &view, wanted)));
            }
            if model.agrees(rust) {
                return Rows::NONE;
            }
            explain(operation, rust).unwrap_or_else(|| {
                differences.push(format!("model: {model}\nrust: {rust}"));
                Rows::NONE
            })
        });
        if let (Some(rust), Some(rows)) = (&rust, rows) {
            for (name, view) in &shown {
                if view.agrees(rust) != (rows == Rows::NONE) {
                    differences.push(format!("{name}: {view}\nrust: {rust}\nrows: {rows}"));
                }
            }
        }
        self.count(operation, &model, rows, !shown.is_empty());
        if !differences.is_empty() {
            self.unexplained += 1;
            if self.unexplained <= SHOWN {
                println!("difference: {}", inputs(operation));
                println!("{}", differences.join("\n"));
            }
        }
    }

    fn count(&mut self, operation: &Operation, model: &View, rows: Option<Rows>, equal: bool) {
        self.inputs += 1;
        if self.inputs % PROGRESS == 0 {
            eprintln!("{} inputs, {} differences", self.inputs, self.unexplained);
        }
        self.equal_inputs += usize::from(equal);
        let counts = self.counts.entry(operation.name()).or_default();
        counts.inputs += 1;
        counts.equal += usize::from(equal);
        match model.verdict {
            Verdict::Refused(refusal) => *counts.refused.entry(refusal.number).or_default() += 1,
            _ => counts.accepted += 1,
        }
        if let Some(rows) = rows {
            self.compared += 1;
            counts.compared += 1;
            if rows != Rows::NONE {
                *counts.rows.entry(rows).or_default() += 1;
            }
        }
    }

    fn report(&self) {
        for (name, counts) in &self.counts {
            let refused = counts
                .refused
                .iter()
                .map(|(n, count)| format!("{n}: {count}"));
            let rows = counts.rows.iter().map(|(rows, n)| format!("{rows}: {n}"));
            println!(
                "{name}: {} inputs, {} accepted; refused {}; held against the library {}; compared with the Rust {}, differing by rows {}",
                counts.inputs,
                counts.accepted,
                braces(refused),
                counts.equal,
                counts.compared,
                braces(rows),
            );
        }
        let mut refused = BTreeMap::new();
        for (number, count) in self.counts.values().flat_map(|counts| &counts.refused) {
            *refused.entry(number).or_insert(0) += count;
        }
        for (number, count) in refused {
            println!("refusal {number}: {count} inputs");
        }
        for number in 1..=10 {
            let count: usize = self
                .counts
                .values()
                .flat_map(|counts| &counts.rows)
                .filter(|(rows, _)| rows.has(number))
                .map(|(_, count)| count)
                .sum();
            println!("row {number}: {count} inputs");
        }
        println!(
            "{} inputs, {} held against the library, {} held against the Rust, {} differences without a row",
            self.inputs, self.equal_inputs, self.compared, self.unexplained
        );
    }
}

fn braces(parts: impl Iterator<Item = String>) -> String {
    format!("{{{}}}", parts.collect::<Vec<_>>().join("; "))
}

/// A line for a side that shows something else.
fn must_agree(name: &str, view: &View, wanted: &View) -> Option<String> {
    (!view.agrees(wanted)).then(|| format!("{name}: {view}\nwanted: {wanted}"))
}
