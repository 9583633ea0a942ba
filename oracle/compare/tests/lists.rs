//! Lists filled with all parts at once: the numbers of the model against its
//! walks, and the C functions against the model, on random and on real input and
//! where there is nothing to list.

use compare::captures::captures;
use compare::generate::{operation, Sort};
use compare::library::Library;
use compare::limits::{lists, NOTHING};
use compare::operation::Operation;
use compare::rng::Rng;
use compare::side::{Model, Side};
use library::guard;
use model::*;

const ROUNDS: usize = 20_000;

/// The blocks by their index: fractions, losses, and five words of each.
fn blocks(kind: Kind, bytes: &[u8]) -> Answer<Vec<Vec<i128>>> {
    read_as(kind, bytes)?;
    let [mut fractions, mut losses, mut words] = [const { Vec::new() }; 3];
    while let Ok(b) = read_block_at(kind, bytes, losses.len() as u64) {
        fractions.push(b.fraction_lost.into());
        losses.push(b.cumulative_lost.into());
        words.push(b.ssrc.into());
        words.extend([b.extended_sequence, b.jitter, b.last_sr, b.delay].map(i128::from));
    }
    Ok(vec![fractions, losses, words])
}

/// The items by the walks.
fn items(bytes: &[u8]) -> Answer<Vec<i128>> {
    let mut walk = open_sdes(bytes)?;
    let mut numbers = Vec::new();
    while let Ok((chunk, next)) = sdes_step(bytes, walk) {
        let from = &bytes[walk.position as usize..];
        let mut at = open_items(from)?;
        while let Ok((item, next)) = item_step(from, at) {
            let [prefix, value] = [item.prefix, item.value].map(|part| part.len() as i128);
            let place = i128::from(walk.position + next) - value;
            numbers.extend([chunk.ssrc.into(), item.item_type.into(), place]);
            numbers.extend([prefix, value]);
            at = next;
        }
        numbers.extend([chunk.ssrc.into(), 0, (walk.position + at).into(), 0, 0]);
        walk = next;
    }
    Ok(numbers)
}

/// The packets by the walk.
fn packets(bytes: &[u8]) -> Answer<Vec<i128>> {
    let mut at = open(bytes)?;
    let mut numbers = Vec::new();
    while let Ok((packet, next)) = step(bytes, at) {
        numbers.extend([packet.packet_type().into(), at, next - at].map(i128::from));
        at = next;
    }
    Ok(numbers)
}

fn check(listing: Listing, bytes: &[u8]) {
    let walked = match listing {
        Listing::Blocks(kind) => blocks(kind, bytes),
        Listing::Items => items(bytes).map(|rows| vec![rows]),
        Listing::Packets => packets(bytes).map(|rows| vec![rows]),
    };
    assert_eq!(listing.numbers(bytes), walked);
    lists(listing, bytes, &mut |list| {
        for side in [guard::Side::End, guard::Side::Start] {
            if let Some(view) = Library(side).view(&list) {
                assert_eq!(Some(view), Model.view(&list), "{list:?}");
            }
        }
    });
}

#[test]
fn of_random_input() {
    let mut rng = Rng::new(7);
    for _ in 0..ROUNDS {
        if let Operation::List(listing, bytes, _) = operation(&mut rng, Sort::List) {
            check(listing, &bytes);
        }
    }
}

#[test]
fn of_real_input() {
    for capture in captures().unwrap_or_default() {
        check(Listing::Packets, &capture.bytes);
        let mut at = 0;
        while let Ok((_, next)) = step(&capture.bytes, at) {
            for listing in Listing::ALL {
                check(listing, &capture.bytes[at as usize..next as usize]);
            }
            at = next;
        }
    }
}

#[test]
fn where_there_is_nothing() {
    for bytes in NOTHING {
        for listing in Listing::ALL {
            check(listing, bytes);
        }
    }
}
