//! Reception figures: the C functions against the model in the widths of the RFC, and
//! that against the model over exact integers, on random histories and at every limit.

use compare::generate::{history, operation, Beginning, Sort};
use compare::histories::Sides;
use compare::library::Library;
use compare::limits;
use compare::operation::Operation;
use compare::rng::Rng;
use compare::side::{Model, Side};
use compare::view::{Value, View};
use library::guard;
use model::*;

const ROUNDS: usize = 20_000;

fn is_reception(operation: &Operation) -> bool {
    matches!(
        operation,
        Operation::NewReception(_) | Operation::Receive(..) | Operation::History(..)
    )
}

fn check(operation: &Operation) {
    let model = Model.view(operation).expect("the model");
    for side in [guard::Side::End, guard::Side::Start] {
        if let Some(view) = Library(side).view(operation) {
            assert!(view.agrees(&model), "{operation:?}\n{view}\n{model}");
        }
    }
}

#[test]
fn of_random_input() {
    let mut rng = Rng::new(7);
    for _ in 0..ROUNDS {
        check(&operation(&mut rng, Sort::Receive));
    }
}

#[test]
fn at_every_limit() {
    limits::enumerate(&mut |operation| {
        if is_reception(&operation) {
            check(&operation);
        }
    });
}

/// All sides reply the same to every event, and some blocks are held to exact counts.
#[test]
fn of_random_histories() {
    let mut rng = Rng::new(7);
    let mut supposed = 0;
    for _ in 0..ROUNDS / 10 {
        let (beginning, events) = history(&mut rng);
        let mut sides = Sides::of(&beginning).expect("the same new source");
        for event in events {
            let reply = sides.take(event);
            let block = matches!(reply, Ok(Reply::Block(Some(_))));
            supposed += u32::from(block && sides.supposed());
            reply.expect("the same reply");
        }
    }
    assert!(supposed > 1000, "{supposed}");
}

fn numbers(view: &View) -> Vec<i128> {
    let number = |value: &Value| match value {
        Value::Number(number) => *number,
        _ => panic!("a number, not {value}"),
    };
    view.fields.iter().map(|(_, value)| number(value)).collect()
}

/// A history shows what its events show one by one, and then the state.
#[test]
fn a_history_is_its_events() {
    let mut rng = Rng::new(7);
    for _ in 0..ROUNDS / 10 {
        let (beginning, events) = history(&mut rng);
        let Beginning::New(first) = beginning else {
            continue;
        };
        let mut state = Reception::new(first);
        let mut shown = Vec::new();
        for event in &events {
            let one = Model.view(&Operation::Receive(state, *event));
            shown.extend(numbers(&one.expect("the model")).split_off(10));
            state.take(*event);
        }
        shown.extend(state.numbers().map(i128::from));
        let whole = Model.view(&Operation::History(first, events));
        assert_eq!(numbers(&whole.expect("the model")), shown);
    }
}

/// The block of any state can be written, and reads as what it was.
#[test]
fn a_block_is_always_writable() {
    let mut rng = Rng::new(7);
    for _ in 0..ROUNDS {
        let Operation::Receive(mut state, event) = operation(&mut rng, Sort::Receive) else {
            continue;
        };
        if let Reply::Block(Some(block)) = state.take(event) {
            let given = Given::Report {
                ssrc: 1,
                sender: None,
                blocks: BlockLists::of(&[block]),
                padding: 0,
            };
            let mut buffer = vec![0; 32];
            assert_eq!(write(&given, &mut buffer), Ok(32));
            assert_eq!(read_block(&buffer[8..]), Ok(block));
        }
    }
}

/// Within the supposition the numbers that wrap are those of the exact counts.
#[test]
fn the_sides_part_only_beyond_the_supposition() {
    let since = |moved| Since {
        start: 0,
        came: 0,
        accepted: 1,
        moved,
        after_jump: None,
        expected_prior: 0,
        accepted_prior: 0,
    };
    for (moved, same) in [((1 << 31) - 1, true), (1 << 31, false)] {
        let mut exact = ExactReception {
            phase: Phase::Valid(since(moved)),
            transit: 0,
            jitter: 0,
        };
        let mut words = exact.in_words().expect("not in probation");
        assert_eq!(exact.supposed(), same);
        let blocks = [exact.report_block(0, 0, 0), words.report_block(0, 0, 0)];
        assert_eq!(blocks[0] == blocks[1], same);
    }
}
