//! Lookups: the answers of the model against its walks, and the C function against
//! the model, on random and on real input and where there is nothing to look up.

use compare::captures::captures;
use compare::generate::{operation, sources, Sort};
use compare::library::Library;
use compare::limits::{look_ups, NOTHING};
use compare::operation::{Operation, Outcome};
use compare::rng::Rng;
use compare::side::{Model, Side};
use library::guard;
use model::*;

const ROUNDS: usize = 20_000;

/// How many steps of a walk come before the first that gives a chunk with that SSRC
/// in which a walk gives a CNAME.
fn walked(bytes: &[u8], ssrc: u32) -> Option<u8> {
    let mut walk = open_sdes(bytes).ok()?;
    let mut steps = 0;
    while let Ok((chunk, next)) = sdes_step(bytes, walk) {
        if chunk.ssrc == ssrc && has_cname(&bytes[walk.position as usize..]) {
            return Some(steps);
        }
        steps += 1;
        walk = next;
    }
    None
}

fn has_cname(chunk: &[u8]) -> bool {
    let mut at = open_items(chunk).expect("a chunk");
    while let Ok((item, next)) = item_step(chunk, at) {
        if item.item_type == CNAME {
            return true;
        }
        at = next;
    }
    false
}

fn check(lookup: &Operation) {
    let (Operation::LookUp(bytes, ssrcs, before), Outcome::LookedUp(answer, answers)) =
        (lookup, lookup.modelled())
    else {
        panic!("a lookup");
    };
    let refusal = if ssrcs.len() > before.len() {
        Some(Refusal::bare(31))
    } else {
        open_sdes(bytes).err()
    };
    assert_eq!(answer.err(), refusal);
    let mut wanted = before.clone();
    if refusal.is_none() {
        for (answer, ssrc) in wanted.iter_mut().zip(ssrcs) {
            *answer = walked(bytes, *ssrc).unwrap_or(255);
        }
    }
    assert_eq!(answers, wanted, "{lookup:?}");
    let model = Model.view(lookup).expect("the model");
    for side in [guard::Side::End, guard::Side::Start] {
        if let Some(view) = Library(side).view(lookup) {
            assert!(view.agrees(&model), "{lookup:?}\n{view}\n{model}");
        }
    }
}

#[test]
fn of_random_input() {
    let mut rng = Rng::new(7);
    for _ in 0..ROUNDS {
        check(&operation(&mut rng, Sort::LookUp));
    }
}

#[test]
fn of_real_input() {
    for capture in captures().unwrap_or_default() {
        let mut at = 0;
        while let Ok((_, next)) = step(&capture.bytes, at) {
            let packet = &capture.bytes[at as usize..next as usize];
            look_ups(packet, &sources(packet), &mut |lookup| check(&lookup));
            at = next;
        }
    }
}

#[test]
fn where_there_is_nothing() {
    for bytes in NOTHING {
        for ssrcs in [&[][..], &[0], &[0, 0x0102_0304]] {
            look_ups(bytes, ssrcs, &mut |lookup| check(&lookup));
        }
    }
}

/// Lists of more SSRCs than one byte, or two, can count.
#[test]
fn of_long_lists() {
    let bytes = [0x81, 202, 0, 2, 0, 0, 0, 1, 1, 1, b'c', 0];
    for count in [255, 256, 257, 65_535, 65_536, 65_537] {
        let ssrcs: Vec<u32> = (0..count).map(|i| i % 3).collect();
        look_ups(&bytes, &ssrcs, &mut |lookup| check(&lookup));
    }
}

/// A view agrees with any number of visits up to the packet's chunks, and with no
/// other.
#[test]
fn visits_are_at_most_the_chunks() {
    let bytes = [0x81, 202, 0, 2, 0, 0, 0, 1, 0, 0, 0, 0];
    let lookup = Operation::LookUp(bytes.to_vec(), vec![1], vec![0]);
    let model = Model.view(&lookup).expect("the model");
    for (visits, agrees) in [(0, true), (1, true), (2, false), (u64::MAX, false)] {
        let mut view = compare::view::View::accepted();
        view.number("visits", visits);
        view.bytes("answers", &[NO_CHUNK]);
        assert_eq!(view.agrees(&model), agrees, "{visits}");
        assert_eq!(model.agrees(&view), agrees, "{visits}");
    }
}
