//! pcapng files.

use crate::capture::{block, enhanced, frame, interface, named, section, simple, Order, SECOND};
use crate::{before_tables, run, PRINTED};

const ORDERS: [Order; 2] = [Order::Big, Order::Little];

fn ethernet(frame: &[u8]) -> Vec<u8> {
    [&[2; 12][..], &[8, 0], frame].concat()
}

/// The lines of the datagrams, from the offset to the addresses.
fn origins(out: &str) -> Vec<&str> {
    let lines = out.lines().filter(|line| line.starts_with("datagram "));
    let offset = lines.map(|line| line.split_once(" at offset ").expect("an offset").1);
    offset
        .map(|line| line.split_once(", 192.").expect("an address").0)
        .collect()
}

/// Interfaces with link types and resolutions of their own: microseconds where
/// nothing is said, nanoseconds, and 1/1024 of a second from an hour later on.
#[test]
fn interfaces_of_either_byte_order() {
    for order in ORDERS {
        let frame = frame(&named(0x1122_3344));
        let second = u64::from(SECOND);
        let hour = order.u64(3600);
        let parts = [
            section(order),
            interface(order, 1, &[(2, b"eth0".to_vec())]),
            interface(order, 101, &[(9, vec![9]), (3, b"raw".to_vec())]),
            block(order, 0x7777, b"unknown"),
            interface(order, 228, &[(9, vec![0x8A]), (14, hour)]),
            enhanced(order, 0, second * 1_000_000 + 250, &ethernet(&frame)),
            enhanced(order, 1, second * 1_000_000_000 + 250, &frame),
            block(order, 5, &[0; 12]),
            enhanced(order, 2, second * 1024 + 512, &frame),
            simple(order, &ethernet(&frame)),
        ];
        let at = |index: usize| parts[..index].iter().map(Vec::len).sum::<usize>();
        let run = run(&[], &parts.concat());
        assert_eq!((run.err.as_str(), run.status), ("", 0));
        assert_eq!(run.out.matches(PRINTED).count(), 4);
        let want = [
            format!("{}, 2026-11-15 20:07:37.000250000 UTC", at(5)),
            format!("{}, 2026-11-15 20:07:37.000000250 UTC", at(6)),
            format!("{}, 2026-11-15 21:07:37.500000000 UTC", at(8)),
            format!("{}", at(9)),
        ];
        assert_eq!(origins(&run.out), want);
    }
}

/// The packet block of old files.
#[test]
fn the_obsolete_packet_block() {
    for order in ORDERS {
        let frame = frame(&named(0x1122_3344));
        let len = frame.len() as u32;
        let units = u64::from(SECOND) * 1_000_000;
        let numbers = [(units >> 32) as u32, units as u32, len, len];
        let numbers = numbers.map(|it| order.u32(it)).concat();
        let body = [order.u16(0), order.u16(7), numbers, frame].concat();
        let file = [
            section(order),
            interface(order, 101, &[]),
            block(order, 2, &body),
        ];
        let run = run(&[], &file.concat());
        assert_eq!((run.err.as_str(), run.status), ("", 0));
        assert_eq!(run.out.matches(PRINTED).count(), 1);
        assert!(run.out.contains(", 2026-11-15 20:07:37.000000000 UTC, "));
    }
}

/// A section has interfaces and a byte order of its own.
#[test]
fn sections_one_after_the_other() {
    let frame = frame(&named(0x1122_3344));
    let of = |order, link, frame: &[u8]| {
        let packet = enhanced(order, 0, 0, frame);
        [section(order), interface(order, link, &[]), packet].concat()
    };
    let file = [
        of(Order::Big, 101, &frame),
        of(Order::Little, 1, &ethernet(&frame)),
    ];
    let run = run(&[], &file.concat());
    assert_eq!((run.err.as_str(), run.status), ("", 0));
    assert_eq!(run.out.matches(PRINTED).count(), 2);
}

#[test]
fn a_link_type_that_is_not_read_is_named_once() {
    let order = Order::Little;
    let frame = frame(&named(0x1122_3344));
    let packets = [1, 0, 1].map(|it| enhanced(order, it, 0, &frame)).concat();
    let file = [
        section(order),
        interface(order, 101, &[]),
        interface(order, 105, &[]),
        packets,
    ];
    let run = run(&[], &file.concat());
    let message = "rtcpdump: standard input: link type 105 is not one that is read\n";
    assert_eq!((run.err.as_str(), run.status), (message, 1));
    assert_eq!(run.out.matches(PRINTED).count(), 1);
    let want = "  records: 3\n    taken as RTCP: 1\n    of a link type that is not read: 2\n";
    assert!(before_tables(&run.out).ends_with(want), "{}", run.out);
}

/// A damaged block between two others: they are read, and it is named.
fn is_named(order: Order, damaged: &[u8], message: &str) {
    let whole = enhanced(order, 0, 0, &frame(&named(0x1122_3344)));
    let start = [section(order), interface(order, 101, &[]), whole.clone()].concat();
    let at = start.len();
    let run = run(&[], &[&start[..], damaged, &whole].concat());
    let want = format!("rtcpdump: standard input: offset {at}: {message}");
    assert!(run.err.starts_with(&want), "{}", run.err);
    assert_eq!(run.err.lines().count(), 1, "{}", run.err);
    assert_eq!(run.out.matches(PRINTED).count(), 2, "{message}");
    assert_eq!(run.status, 1);
}

#[test]
fn blocks_that_are_damaged() {
    for order in ORDERS {
        let whole = enhanced(order, 0, 0, &frame(&named(1)));
        let len = whole.len();
        let with = |at: usize, number: u32| {
            let mut block = whole.clone();
            block[at..at + 4].copy_from_slice(&order.u32(number));
            block
        };
        is_named(order, &with(8, 7), "interface 7 is not described\n");
        is_named(
            order,
            &with(20, 53),
            "the block says 53 bytes of a frame of 52\n",
        );
        is_named(
            order,
            &with(24, 51),
            "the block says 52 bytes of a frame of 51\n",
        );
        let mut long = with(20, 60);
        long[24..28].copy_from_slice(&order.u32(60));
        is_named(order, &long, "the block says 60 bytes, and 52 are left\n");
        for wrong in [0, 8, len as u32 + 1, u32::MAX] {
            let message = format!("the block says a length of {wrong} bytes; the next block is ");
            is_named(order, &with(4, wrong), &message);
        }
        let message = format!("the block says a length of {len} bytes, and of 5 at its end; the ");
        is_named(order, &with(len - 4, 5), &message);
        is_named(order, &block(order, 6, &[0; 8]), "the block has 20 bytes\n");
        is_named(
            order,
            &block(order, 1, &[0; 4]),
            "the interface description has no link type\n",
        );
    }
}

#[test]
fn a_last_block_that_is_cut_off() {
    let order = Order::Little;
    let start = [section(order), interface(order, 101, &[])].concat();
    let whole = enhanced(order, 0, 0, &frame(&named(0x1122_3344)));
    let file = [&start[..], &whole, &whole].concat();
    for len in start.len() + whole.len() + 1..file.len() {
        let run = run(&[], &file[..len]);
        assert_eq!(run.out.matches(PRINTED).count(), 1);
        assert!(run.err.ends_with("; no block follows\n"), "{}", run.err);
        assert_eq!(run.status, 1);
    }
}

/// Resolutions that no clock has are no reason to stop.
#[test]
fn times_that_cannot_be() {
    let order = Order::Big;
    for resolution in [0, 1, 40, 127, 128, 191, 255] {
        let options = [(9, vec![resolution]), (14, vec![0x7F; 8])];
        let packet = enhanced(order, 0, u64::MAX, &frame(&named(0x1122_3344)));
        let file = [section(order), interface(order, 101, &options), packet];
        let run = run(&[], &file.concat());
        assert_eq!(run.out.matches(PRINTED).count(), 1, "{resolution}");
        assert_eq!((run.err.as_str(), run.status), ("", 0));
    }
}
