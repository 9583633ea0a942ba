//! The smallest inputs on which the Rust differs, with the rows that say so.
#![cfg(rtcp_types)]

use compare::operation::Operation;
use compare::rows::{explain, Rows};
use compare::rust::Rust;
use compare::side::{Model, Side};
use model::*;

fn hex(text: &str) -> Vec<u8> {
    text.split_whitespace()
        .map(|byte| u8::from_str_radix(byte, 16).expect("hexadecimal"))
        .collect()
}

/// Checks what the model and the Rust show, and the rows between them.
fn differs(operation: Operation, rows: &[u8], model: &str, rust: &str) {
    let seen = Rust.view(&operation).expect("the Rust can be asked");
    assert_eq!(explain(&operation, &seen), Some(Rows::of(rows)));
    let shown = Model.view(&operation).expect("the model").to_string();
    assert!(shown.starts_with(model), "{shown}");
    let shown = seen.to_string();
    assert!(shown.contains(rust), "{shown}");
}

fn reads(kind: Kind, bytes: &str, rows: &[u8], model: &str, rust: &str) {
    differs(Operation::ReadAs(kind, hex(bytes)), rows, model, rust);
}

#[test]
fn row_1() {
    let app = "A0 CC 00 02 00 00 00 00 00 00 00 01";
    reads(Kind::App, app, &[1], "4(0,0)", "data=panic");
    let bye = "A0 CB 00 01 04 00 00 04";
    reads(Kind::Bye, bye, &[1], "ok", "2(9,8)");
    let rr = "A1 C9 00 01 00 00 00 00";
    reads(Kind::Rr, rr, &[], "4(0,0)", "4(0,0)");
    let rr = "A0 C9 00 01 00 00 00 01";
    reads(Kind::Rr, rr, &[1], "4(0,0)", "padding=1");
}

#[test]
fn a_reason_in_the_padding_is_none_in_both() {
    let bye = "A1 CB 00 02 00 00 00 01 00 00 00 04";
    reads(Kind::Bye, bye, &[], "ok", "reason=-");
}

#[test]
fn row_2() {
    let trial_4 = "82 CA 00 04 00 00 00 01 00 00 00 00 00 00 00 10 00 00 00 00";
    reads(Kind::Sdes, trial_4, &[2], "ok", "2(12,11)");
    let padded = "A1 CA 00 03 00 00 00 01 00 00 00 00 00 00 00 04";
    reads(Kind::Sdes, padded, &[1, 2], "ok", "2(12,11)");
}

#[test]
fn row_3() {
    reads(Kind::Sdes, "81 CA 00 00", &[3], "2(4,0)", "chunks=0");
    let open = "81 CA 00 01 00 00 00 01";
    reads(Kind::Sdes, open, &[3], "2(8,4)", "chunks=1");
    let padded = "A0 CA 00 01 00 00 00 04";
    reads(Kind::Sdes, padded, &[1, 3], "ok", "chunk_ssrc=4");
}

#[test]
fn row_4() {
    let trial_7 = "81 CA 00 03 00 00 00 01 01 03 61 62 63 02 00 00";
    reads(Kind::Sdes, trial_7, &[4], "ok", "2(4,3)");
    let operation = Operation::ReadItem(hex("01 00"));
    differs(operation, &[4], "ok", "2(4,2)");
}

#[test]
fn row_5() {
    let sdes = "81 CA 00 02 00 00 00 00 08 01 01 00";
    reads(Kind::Sdes, sdes, &[5], "5(1,0)", "prefix=panic value=panic");
    let operation = Operation::ReadPrefix(hex("08 01 01 00"));
    differs(operation, &[5], "5(1,0)", "prefix=panic");
}

#[test]
fn row_6() {
    let bye = Given::Bye {
        sources: Vec::new(),
        reason: b"a".to_vec(),
        padding: 4,
    };
    differs(
        Operation::Write(bye, vec![0x5A; 12]),
        &[6],
        "ok written=12 size=12 buffer=xA0CB00020161000000000004",
        "ok written=12 size=12 buffer=xA0CB00020161000000045A5A",
    );
}

#[test]
fn row_7() {
    let app = Given::App {
        subtype: 0,
        ssrc: 0,
        name: Vec::new(),
        data: vec![0; 262_136],
        padding: 0,
    };
    differs(
        Operation::Write(app.clone(), Vec::new()),
        &[7],
        "22(0,0)",
        "10(262148,0)",
    );
    differs(
        Operation::Write(app, vec![0x5A; 262_148]),
        &[7],
        "22(0,0)",
        "ok written=262148 size=262148 buffer=x80CC0000",
    );
}

#[test]
fn row_8() {
    let operation = Operation::ReadChunk(hex("00 00 00 01 01 02 61 62 00 00 00 00"));
    differs(
        operation,
        &[8],
        "ok chunk_ssrc=1 chunk_length=12",
        "chunk_length=8",
    );
}

#[test]
fn row_9() {
    let item = Item {
        item_type: 0,
        prefix: Vec::new(),
        value: b"v".to_vec(),
    };
    differs(
        Operation::WriteItem(item, vec![0x5A; 3]),
        &[9],
        "23(0,0)",
        "ok written=3 size=? buffer=x000176",
    );
}

/// A report of one block with that loss, over as many bytes as it takes.
fn write_loss(cumulative_lost: i32) -> Operation {
    let block = Block {
        cumulative_lost,
        ..Block::default()
    };
    let rr = Given::Report {
        ssrc: 0,
        sender: None,
        blocks: BlockLists::of(&[block]),
        padding: 0,
    };
    Operation::Write(rr, vec![0x5A; 32])
}

#[test]
fn row_10() {
    let block = |bits: [u8; 3]| {
        let mut bytes = vec![0; 24];
        bytes[5..8].copy_from_slice(&bits);
        Operation::ReadBlock(bytes)
    };
    let lost = |number: i32| format!("ok block_ssrc=0 fraction_lost=0 cumulative_lost={number} ");
    for (bits, here, rust) in [
        ([0x80, 0, 0], -8_388_608, 8_388_608),
        ([0xFF, 0xFF, 0xFF], -1, 16_777_215),
    ] {
        differs(block(bits), &[10], &lost(here), &lost(rust));
    }
    for (bits, number) in [([0, 0, 0], 0), ([0x7F, 0xFF, 0xFF], 8_388_607)] {
        differs(block(bits), &[], &lost(number), &lost(number));
    }
    let most = "17(8388608,8388607)";
    differs(write_loss(8_388_608), &[10], most, "ok written=32");
    let above = ("17(16777215,8388607)", "ok written=32");
    differs(write_loss(16_777_215), &[10], above.0, above.1);
    let over = ("17(16777216,8388607)", "17(16777216,16777215)");
    differs(write_loss(16_777_216), &[10], over.0, over.1);
}

/// In the range the Rust is given the 24 bits, and the bytes are equal; a number below
/// it has no form that the Rust takes.
#[test]
fn a_loss_is_given_to_the_rust_as_its_24_bits() {
    for (loss, bits) in [
        (0, "000000"),
        (-1, "FFFFFF"),
        (-8_388_608, "800000"),
        (8_388_607, "7FFFFF"),
    ] {
        let head = "ok written=32 size=32 buffer=x81C90007000000000000000000";
        let bytes = format!("{head}{bits}");
        differs(write_loss(loss), &[], &bytes, &bytes);
    }
    for loss in [-8_388_609, i32::MIN] {
        assert_eq!(Rust.view(&write_loss(loss)), None);
    }
}
