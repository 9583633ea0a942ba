//! Tries the C functions on inputs that the answers lead to.
//!
//!     fuzz [COUNT|SECONDSs] [SEED]
//!
//! A case is a run of bytes and two numbers. Every reading is asked of it, every
//! call that fills a list with lists around the right length, lookups with answer
//! buffers around the list's length, and one write, one call of the writer, one event
//! and one history of a source whose arguments are drawn from its bytes. An answer must
//! be the model's, with everything lent in memory that ends at a closed page, and again
//! in memory that starts at one. A case that brings a refusal, a field or a class of
//! numbers that was not seen before is kept, and later cases are changes of kept ones.
//! The first cases are real datagrams (`compare::captures`) and random inputs. A
//! difference is printed, and the exit status is 1.

mod case;
mod change;

use case::Case;
use compare::captures::{captures, Capture};
use compare::generate::{operation, Sort};
use compare::library::{about_library, watched, Library};
use compare::operation::Operation;
use compare::rng::Rng;
use compare::side::{Model, Side};
use compare::text::inputs;
use compare::view::{Value, Verdict, View};
use library::guard;
use std::collections::hash_map::DefaultHasher;
use std::collections::{BTreeMap, HashSet};
use std::hash::{Hash, Hasher};
use std::process::ExitCode;
use std::time::{Duration, Instant};

/// Differences after which it is enough.
const ENOUGH: usize = 20;

/// Fields that no rule looks at: all their values are one class.
const OPAQUE: [&str; 22] = [
    "ssrc",
    "ntp_time",
    "rtp_time",
    "packet_count",
    "octet_count",
    "block_ssrc",
    "fraction_lost",
    "extended_sequence",
    "jitter",
    "last_sr",
    "delay",
    "chunk_ssrc",
    "source",
    "item_type",
    "max_seq",
    "cycles",
    "base_seq",
    "bad_seq",
    "received",
    "expected_prior",
    "received_prior",
    "transit",
];

/// Random inputs among the first cases.
const FIRST: usize = 4000;

fn main() -> ExitCode {
    let mut arguments = std::env::args().skip(1);
    let until = Until::of(&arguments.next().unwrap_or_else(|| "60s".to_string()));
    let seed = arguments
        .next()
        .map_or(1, |seed| seed.parse().expect("SEED is a number"));
    println!("{}", about_library());
    if !library::present() {
        return ExitCode::SUCCESS;
    }
    let mut rng = Rng::new(seed);
    let mut fuzz = Fuzz::new();
    for case in first_cases(&mut rng) {
        if fuzz.differences < ENOUGH {
            fuzz.run(case);
        }
    }
    println!("first cases: {}, kept {}", fuzz.cases, fuzz.kept.len());
    while !until.reached(fuzz.cases) && fuzz.differences < ENOUGH {
        let case = change::changed(&mut rng, &fuzz.kept);
        fuzz.run(case);
    }
    fuzz.report()
}

enum Until {
    Count(usize),
    Time(Instant),
}

impl Until {
    fn of(text: &str) -> Until {
        match text.strip_suffix('s') {
            Some(seconds) => {
                let seconds = seconds.parse().expect("SECONDS is a number");
                Until::Time(Instant::now() + Duration::from_secs(seconds))
            }
            None => Until::Count(text.parse().expect("COUNT is a number")),
        }
    }

    fn reached(&self, cases: usize) -> bool {
        match self {
            Until::Count(count) => cases >= *count,
            Until::Time(end) => Instant::now() >= *end,
        }
    }
}

/// Real datagrams with their packets, then random inputs.
fn first_cases(rng: &mut Rng) -> Vec<Case> {
    let mut cases = Vec::new();
    for Capture { bytes, .. } in captures().unwrap_or_default() {
        let mut at = 0;
        while let Ok((_, next)) = model::step(&bytes, at) {
            cases.push(Case::of(&bytes[at as usize..next as usize], 0, 0));
            cases.push(Case::of(&bytes, at, next));
            at = next;
        }
    }
    for _ in 0..FIRST {
        let sort = rng.pick(&Sort::ALL);
        cases.extend(case_of(operation(rng, sort)));
    }
    cases
}

/// The case of a reading.
fn case_of(operation: Operation) -> Option<Case> {
    let (at, end) = match &operation {
        Operation::ReadBlockAt(_, _, at)
        | Operation::ReadSourceAt(_, at)
        | Operation::Step(_, at)
        | Operation::ItemStep(_, at) => (*at, 0),
        Operation::SdesStep(_, walk) => (walk.position, walk.end),
        _ => (0, 0),
    };
    Some(Case::of(operation.bytes_read()?, at, end))
}

#[derive(Default)]
struct Counts {
    runs: usize,
    refusals: BTreeMap<u8, usize>,
}

struct Fuzz {
    sides: [Library; 2],
    kept: Vec<Case>,
    seen: HashSet<u64>,
    cases: usize,
    differences: usize,
    counts: BTreeMap<&'static str, Counts>,
    started: Instant,
}

impl Fuzz {
    fn new() -> Self {
        Fuzz {
            sides: [Library(guard::Side::End), Library(guard::Side::Start)],
            kept: Vec::new(),
            seen: HashSet::new(),
            cases: 0,
            differences: 0,
            counts: BTreeMap::new(),
            started: Instant::now(),
        }
    }

    fn run(&mut self, case: Case) {
        self.cases += 1;
        let known = self.seen.len();
        for operation in case.operations() {
            self.ask(operation);
        }
        if self.seen.len() > known {
            self.kept.push(case);
        }
    }

    fn ask(&mut self, operation: Operation) {
        let operation = &*watched(operation);
        let mut model = None;
        for at in 0..self.sides.len() {
            let Some(view) = self.sides[at].view(operation) else {
                return;
            };
            let wanted =
                model.get_or_insert_with(|| Model.view(operation).expect("the model has it"));
            if !view.agrees(wanted) {
                let text = format!("{}\nlibrary: {view}\nwanted: {wanted}", inputs(operation));
                self.differs(&text);
            }
        }
        if let Some(view) = model {
            self.note(operation.name(), &view);
        }
    }

    fn differs(&mut self, text: &str) {
        self.differences += 1;
        println!("difference: {text}");
    }

    /// Takes down what an answer has that is new.
    fn note(&mut self, name: &'static str, view: &View) {
        let counts = self.counts.entry(name).or_default();
        counts.runs += 1;
        if let Verdict::Refused(refusal) = view.verdict {
            *counts.refusals.entry(refusal.number).or_default() += 1;
            let classes = (class(refusal.first.into()), class(refusal.second.into()));
            self.see((name, refusal.number, classes));
        }
        for (field, value) in &view.fields {
            match value {
                _ if OPAQUE.contains(field) => self.see((name, field)),
                Value::Number(number) | Value::AtMost(number) => {
                    self.see((name, field, class(*number)));
                }
                Value::Bytes(bytes) if *field == "answers" => {
                    bytes
                        .iter()
                        .for_each(|answer| self.see((name, field, answer)));
                }
                Value::Bytes(bytes) => self.see((name, field, class(bytes.len() as i128))),
                _ => self.see((name, field)),
            }
        }
        self.see((name, class(view.fields.len() as i128)));
    }

    fn see(&mut self, what: impl Hash) {
        let mut hasher = DefaultHasher::new();
        what.hash(&mut hasher);
        self.seen.insert(hasher.finish());
    }

    fn report(&self) -> ExitCode {
        for (name, counts) in &self.counts {
            let refused: Vec<String> = counts
                .refusals
                .iter()
                .map(|(number, count)| format!("{number}: {count}"))
                .collect();
            println!(
                "{name}: {} runs; refused {{{}}}",
                counts.runs,
                refused.join("; ")
            );
        }
        println!(
            "{} cases in {} s, {} kept, {} classes of answers, {} differences",
            self.cases,
            self.started.elapsed().as_secs(),
            self.kept.len(),
            self.seen.len(),
            self.differences,
        );
        ExitCode::from(u8::from(self.differences > 0))
    }
}

/// Small numbers each by themselves, others by sign, size and remainder.
fn class(number: i128) -> (i128, u32, i128) {
    match number {
        0..=40 => (0, 0, number),
        _ => (number.signum(), number.unsigned_abs().ilog2(), number % 4),
    }
}
