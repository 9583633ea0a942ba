//! Looks up lists of SSRCs in SDES packets through the C function.
//!
//!     lookups [COUNT] [SEED]
//!
//! COUNT packets are drawn, good and damaged, each with a list and a buffer for its
//! answers. All three lie in memory that ends at a closed page, and again in memory
//! that starts at one. The answer and the whole buffer must be the model's, the packet
//! and the list as they were, and the chunks visited no more than the packet has. It
//! prints how many there are of each kind, and the exit status is 1 where something
//! differs.

use compare::generate::{operation, Sort};
use compare::library::{about_library, watched, Library};
use compare::operation::Operation;
use compare::rng::Rng;
use compare::side::{Model, Side};
use compare::text::inputs;
use compare::view::{Value, Verdict, View};
use library::guard;
use model::NO_CHUNK;
use std::cmp::Ordering;
use std::collections::BTreeMap;
use std::process::ExitCode;

const SIDES: [Library; 2] = [Library(guard::Side::End), Library(guard::Side::Start)];

/// Differences printed in full.
const SHOWN: usize = 20;

fn main() -> ExitCode {
    let (count, seed) = compare::count_and_seed(&mut std::env::args().skip(1), 100_000);
    println!("{}", about_library());
    let mut rng = Rng::new(seed);
    let mut counts = Counts::default();
    for _ in 0..count {
        let operation = &*watched(operation(&mut rng, Sort::LookUp));
        let wanted = Model.view(operation).expect("the model has it");
        for side in SIDES {
            let Some(view) = side.view(operation) else {
                println!("no lookups: the library has no function for them");
                return ExitCode::SUCCESS;
            };
            if !view.agrees(&wanted) {
                counts.differs(operation, &view, &wanted);
            }
            counts.note_visits(&view, &wanted);
        }
        counts.note(operation, &wanted);
    }
    counts.print(count);
    ExitCode::from(u8::from(counts.differences > 0))
}

#[derive(Default)]
struct Counts {
    accepted: usize,
    refused: BTreeMap<u8, usize>,
    lists: BTreeMap<&'static str, usize>,
    answers: BTreeMap<&'static str, usize>,
    /// Of the calls that were accepted.
    visits: BTreeMap<&'static str, usize>,
    differences: usize,
}

impl Counts {
    fn differs(&mut self, operation: &Operation, view: &View, wanted: &View) {
        self.differences += 1;
        if self.differences <= SHOWN {
            let asked = inputs(operation);
            println!("difference: {asked}\nlibrary: {view}\nwanted: {wanted}");
        }
    }

    fn note_visits(&mut self, view: &View, wanted: &View) {
        if let (Some((_, Value::Number(visits))), Some((_, Value::AtMost(most)))) =
            (view.fields.first(), wanted.fields.first())
        {
            let class = match visits.cmp(most) {
                Ordering::Less => "below the packet's chunks",
                Ordering::Equal => "all of the packet's chunks",
                Ordering::Greater => "above the packet's chunks",
            };
            *self.visits.entry(class).or_default() += 1;
        }
    }

    fn note(&mut self, operation: &Operation, wanted: &View) {
        let Operation::LookUp(_, ssrcs, before) = operation else {
            return;
        };
        let list = length_class(ssrcs.len(), before.len());
        *self.lists.entry(list).or_default() += 1;
        if let Verdict::Refused(refusal) = wanted.verdict {
            *self.refused.entry(refusal.number).or_default() += 1;
            return;
        }
        self.accepted += 1;
        if let Some((_, Value::Bytes(answers))) = wanted.fields.last() {
            for answer in &answers[..ssrcs.len()] {
                *self.answers.entry(answer_class(*answer)).or_default() += 1;
            }
        }
    }

    fn print(&self, count: usize) {
        print_all("list", &self.lists);
        println!("accepted: {}", self.accepted);
        print_all("refused with", &self.refused);
        print_all("answer", &self.answers);
        print_all("chunks visited,", &self.visits);
        println!("{count} lookups, {} differences", self.differences);
    }
}

fn print_all<T: std::fmt::Display>(what: &str, counts: &BTreeMap<T, usize>) {
    for (class, count) in counts {
        println!("{what} {class}: {count}");
    }
}

fn length_class(listed: usize, room: usize) -> &'static str {
    match listed.cmp(&room) {
        _ if listed == 0 && room == 0 => "empty, and no room",
        _ if listed == 0 => "empty",
        Ordering::Less => "shorter than the buffer",
        Ordering::Equal => "as long as the buffer",
        Ordering::Greater if listed == room + 1 => "longer than the buffer by one",
        Ordering::Greater => "longer than the buffer by more",
    }
}

fn answer_class(answer: u8) -> &'static str {
    match answer {
        0 => "00",
        1 => "01",
        2..=9 => "02 to 09",
        10..=29 => "10 to 29",
        30 => "30",
        NO_CHUNK => "none",
        _ => "that no chunk has",
    }
}
