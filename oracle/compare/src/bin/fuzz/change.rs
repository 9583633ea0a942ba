//! A new case from kept ones.

use crate::case::Case;
use compare::rng::Rng;

/// Longer cases are cut.
const LONGEST: usize = 1200;

const BYTES: [u8; 14] = [0, 1, 2, 3, 4, 8, 12, 31, 0x7F, 0x80, 0xA0, 0xFC, 0xFE, 0xFF];

pub fn changed(rng: &mut Rng, kept: &[Case]) -> Case {
    let mut case = kept[rng.below(kept.len())].clone();
    for _ in 0..1 + rng.below(4) {
        match rng.below(14) {
            0 | 1 => change_byte(rng, &mut case.bytes, |rng, byte| byte ^ 1 << rng.below(8)),
            2 | 3 => change_byte(rng, &mut case.bytes, |rng, _| rng.pick(&BYTES)),
            4 => change_byte(rng, &mut case.bytes, |rng, byte| {
                byte.wrapping_add(rng.pick(&[1, 255, 4, 252]))
            }),
            5 => {
                let at = rng.below(case.bytes.len() + 1);
                let fresh: Vec<u8> = (0..1 + rng.below(8)).map(|_| rng.pick(&BYTES)).collect();
                case.bytes.splice(at..at, fresh);
            }
            6 => {
                let at = rng.below(case.bytes.len() + 1);
                let end = (at + 1 + rng.below(8)).min(case.bytes.len());
                case.bytes.drain(at..end);
            }
            7 => case.bytes.truncate(rng.below(case.bytes.len() + 1)),
            8 => {
                let other = &kept[rng.below(kept.len())];
                join(rng, &mut case, other);
            }
            9 => set_type(rng, &mut case.bytes),
            10 => case.at = place(rng, &case),
            11 => case.end = place(rng, &case),
            _ => fit_length(&mut case.bytes),
        }
    }
    case.bytes.truncate(LONGEST);
    case
}

fn change_byte(rng: &mut Rng, bytes: &mut [u8], new: impl Fn(&mut Rng, u8) -> u8) {
    if !bytes.is_empty() {
        let at = rng.below(bytes.len());
        bytes[at] = new(rng, bytes[at]);
    }
}

/// The start of one and the end of another, cut at words as a rule.
fn join(rng: &mut Rng, case: &mut Case, other: &Case) {
    let unit = if rng.once_in(4) { 1 } else { 4 };
    let keep = unit * rng.below(case.bytes.len() / unit + 1);
    let from = unit * rng.below(other.bytes.len() / unit + 1);
    case.bytes.truncate(keep);
    case.bytes.extend(&other.bytes[from..]);
}

fn set_type(rng: &mut Rng, bytes: &mut [u8]) {
    if let [first, packet_type, ..] = bytes {
        *first = rng.pick(&[0x80, 0xA0]) | *first & 31;
        *packet_type = 199 + rng.below(7) as u8;
    }
}

/// The length field that makes one packet of all the bytes.
fn fit_length(bytes: &mut Vec<u8>) {
    bytes.truncate(bytes.len() & !3);
    let words = (bytes.len() / 4).saturating_sub(1) as u16;
    if let Some(field) = bytes.get_mut(2..4) {
        field.copy_from_slice(&words.to_be_bytes());
    }
}

fn place(rng: &mut Rng, case: &Case) -> u64 {
    let len = case.bytes.len();
    match rng.below(8) {
        0 => u64::MAX - rng.below(9) as u64,
        1 => len as u64,
        2 => 1 << rng.below(64),
        3 => rng.below(len + 2) as u64,
        4 => rng.below(33) as u64,
        _ => 4 * rng.below(len / 4 + 2) as u64,
    }
}
