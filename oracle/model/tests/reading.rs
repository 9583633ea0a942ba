//! Both sides of every limit of reading.

mod common;
use common::*;
use model::*;

/// A packet whose length field fits.
fn packet(first: u8, packet_type: u8, rest: &[u8]) -> Vec<u8> {
    let words = (rest.len() / 4) as u8;
    [&[first, packet_type, 0, words], rest].concat()
}

#[test]
fn least_lengths() {
    for kind in Kind::ALL {
        let bytes = packet(0x80, kind.packet_type(), &vec![0; kind.least() - 4]);
        assert!(read_as(kind, &bytes).is_ok());
        let short = &bytes[..kind.least() - 1];
        let least = kind.least() as u64;
        assert_eq!(read_as(kind, short), refused(2, least, least - 1));
        assert_eq!(read_as(kind, &[]), refused(2, least, 0));
    }
}

#[test]
fn header_order() {
    for version in [0, 1, 3] {
        let bytes = packet(version << 6, 199, &[0; 4]);
        assert_eq!(read_as(Kind::Rr, &bytes), refused(1, version.into(), 0));
    }
    assert_eq!(
        read_as(Kind::Rr, &hex("80 CA 00 02 00 00 00 00")),
        refused(6, 202, 201)
    );
    assert_eq!(
        read_as(Kind::Rr, &hex("80 C9 00 02 00 00 00 00")),
        refused(2, 12, 8)
    );
    assert_eq!(
        read_as(Kind::Rr, &hex("80 C9 00 00 00 00 00 00")),
        refused(3, 4, 8)
    );
    assert_eq!(
        read_as(Kind::Rr, &hex("80 C9 FF FF 00 00 00 00")),
        refused(2, 262_144, 8)
    );
}

#[test]
fn padding_counts() {
    let padded = |count: u8| {
        let mut bytes = packet(0xA0, 201, &[0; 12]);
        bytes[15] = count;
        read_as(Kind::Rr, &bytes)
    };
    for count in [0, 1, 3, 5, 12, 255] {
        assert_eq!(padded(count), refused(4, 0, 0));
    }
    for count in [4, 8] {
        let packet = padded(count).expect("it fits");
        assert_eq!(packet.padding.len(), usize::from(count));
        let Content::Report { extension, .. } = packet.content else {
            panic!("an RR");
        };
        assert_eq!(extension.len(), 8 - usize::from(count));
    }
}

#[test]
fn report_blocks_and_extension() {
    let mut rest = vec![0; 4 + 24];
    rest[8..12].copy_from_slice(&[5, 0x80, 0, 1]);
    let bytes = packet(0x81, 201, &rest);
    let block = Block {
        fraction_lost: 5,
        cumulative_lost: -8_388_607,
        ..Block::default()
    };
    assert_eq!(read_block_at(Kind::Rr, &bytes, 0), Ok(block));
    assert_eq!(read_block_at(Kind::Rr, &bytes, 1), refused(25, 0, 0));
    assert_eq!(read_block_at(Kind::Rr, &bytes, u64::MAX), refused(25, 0, 0));
    assert_eq!(read_block_at(Kind::Sr, &bytes, 9), refused(6, 201, 200));

    let short = packet(0x81, 201, &rest[..24]);
    assert_eq!(read_as(Kind::Rr, &short), refused(2, 32, 28));
    let sender = packet(0x81, 200, &[0; 24]);
    assert_eq!(read_as(Kind::Sr, &sender), refused(2, 52, 28));

    let longer = packet(0x80, 201, &[1, 2, 3, 4, 5, 6, 7, 8]);
    let Content::Report { extension, .. } = read_as(Kind::Rr, &longer).expect("an RR").content
    else {
        panic!("an RR");
    };
    assert_eq!(extension, [5, 6, 7, 8]);
}

#[test]
fn sender_fields() {
    let rest: Vec<u8> = (1..=24).collect();
    let Content::Report { ssrc, sender, .. } = read_as(Kind::Sr, &packet(0x80, 200, &rest))
        .expect("an SR")
        .content
    else {
        panic!("an SR");
    };
    assert_eq!(ssrc, 0x0102_0304);
    assert_eq!(
        sender,
        Some(SenderInfo {
            ntp_time: 0x0506_0708_090A_0B0C,
            rtp_time: 0x0D0E_0F10,
            packet_count: 0x1112_1314,
            octet_count: 0x1516_1718,
        })
    );
}

#[test]
fn lone_block() {
    assert_eq!(read_block(&[0; 23]), refused(2, 24, 23));
    assert_eq!(read_block(&[0; 24]), Ok(Block::default()));
    assert_eq!(read_block(&[0; 25]), refused(3, 24, 25));
}

/// The 24 bits of a loss, and the loss.
const LOSSES: [([u8; 3], i32); 10] = [
    ([0x00, 0x00, 0x00], 0),
    ([0x00, 0x00, 0x01], 1),
    ([0x01, 0x02, 0x03], 66_051),
    ([0x7F, 0xFF, 0xFE], 8_388_606),
    ([0x7F, 0xFF, 0xFF], 8_388_607),
    ([0x80, 0x00, 0x00], -8_388_608),
    ([0x80, 0x00, 0x01], -8_388_607),
    ([0xFE, 0xFD, 0xFD], -66_051),
    ([0xFF, 0xFF, 0xFE], -2),
    ([0xFF, 0xFF, 0xFF], -1),
];

/// A fraction lost and a loss in a block of zeros, with its bytes.
fn lossy(fraction_lost: u8, bits: [u8; 3], cumulative_lost: i32) -> (Block, [u8; 24]) {
    let mut bytes = [0; 24];
    bytes[4] = fraction_lost;
    bytes[5..8].copy_from_slice(&bits);
    let block = Block {
        fraction_lost,
        cumulative_lost,
        ..Block::default()
    };
    (block, bytes)
}

#[test]
fn losses_have_a_sign() {
    for (bits, loss) in LOSSES {
        for fraction in [0, 0x7F, 0x80, 0xFF] {
            let (block, bytes) = lossy(fraction, bits, loss);
            assert_eq!(read_block(&bytes), Ok(block));
            let two = [[0; 4].as_slice(), &[0; 24], &bytes].concat();
            let rr = packet(0x82, 201, &two);
            assert_eq!(read_block_at(Kind::Rr, &rr, 0), Ok(Block::default()));
            assert_eq!(read_block_at(Kind::Rr, &rr, 1), Ok(block));
            let sr = packet(0x81, 200, &[[0; 24].as_slice(), &bytes].concat());
            assert_eq!(read_block_at(Kind::Sr, &sr, 0), Ok(block));
        }
    }
}

#[test]
fn lists_of_losses_have_a_sign() {
    let mut blocks = Vec::new();
    let mut rest = vec![0; 4];
    for (bits, loss) in LOSSES {
        let (block, bytes) = lossy(9, bits, loss);
        blocks.push(block);
        rest.extend(bytes);
    }
    let rr = packet(0x8A, 201, &rest);
    let content = read_as(Kind::Rr, &rr).expect("an RR").content;
    assert!(matches!(content, Content::Report { blocks: read, .. } if read == blocks));
    let sr = packet(0x8A, 200, &[&[0; 20], &rest[..]].concat());
    let losses: Vec<i128> = LOSSES.iter().map(|(_, loss)| (*loss).into()).collect();
    let mut lists = vec![vec![9; 10], losses, vec![0; 50]];
    for (kind, bytes) in [(Kind::Rr, rr), (Kind::Sr, sr)] {
        let listing = Listing::Blocks(kind);
        assert_eq!(listing.numbers(&bytes), Ok(lists.clone()));
        let mut filled = vec![vec![7; 10], vec![7; 11], vec![7; 50]];
        assert_eq!(listing.fill(&bytes, &mut filled), Ok(10));
        lists[1].push(7);
        assert_eq!(filled, lists);
        lists[1].pop();
        let mut short = vec![vec![7; 10], vec![7; 9], vec![7; 50]];
        assert_eq!(listing.fill(&bytes, &mut short), refused(10, 10, 0));
        assert_eq!(short, [vec![7; 10], vec![7; 9], vec![7; 50]]);
    }
}

#[test]
fn chunk_ends() {
    let chunk = |text: &str| read_chunk(&hex(text)).map(|(chunk, used)| (chunk.items.len(), used));
    assert_eq!(chunk("00 00 00"), refused(2, 4, 3));
    assert_eq!(chunk("00 00 00 00"), refused(2, 8, 4));
    assert_eq!(chunk("00 00 00 00 00 00 00"), refused(2, 8, 7));
    assert_eq!(chunk("00 00 00 00 00 00 00 00"), Ok((0, 8)));
    assert_eq!(chunk("00 00 00 00 00 00 00 01"), refused(2, 8, 7));
    assert_eq!(chunk("00 00 00 00 00 01 00 01"), refused(2, 8, 5));
    assert_eq!(chunk("00 00 00 00 01 00"), refused(2, 8, 6));
    assert_eq!(chunk("00 00 00 00 01 00 00 00"), Ok((1, 8)));
    assert_eq!(chunk("00 00 00 00 01 01 61 00"), Ok((1, 8)));
    assert_eq!(chunk("00 00 00 00 01 02 61 62"), refused(2, 12, 8));
    assert_eq!(chunk("00 00 00 00 01 02 61 62 00 00 00 00"), Ok((1, 12)));
    assert_eq!(chunk("00 00 00 00 00 00 00 00 00 00"), Ok((0, 8)));
    assert_eq!(chunk("00 00 00 00 01 01 61 02"), refused(2, 4, 1));
}

#[test]
fn chunk_count() {
    let one = hex("00 00 00 01 00 00 00 00");
    assert!(read_as(Kind::Sdes, &packet(0x81, 202, &one)).is_ok());
    assert_eq!(
        read_as(Kind::Sdes, &packet(0x80, 202, &one)),
        refused(3, 4, 12)
    );
    assert_eq!(
        read_as(Kind::Sdes, &packet(0x82, 202, &one)),
        refused(2, 4, 0)
    );
    let two = [&one[..], &one].concat();
    assert_eq!(
        read_as(Kind::Sdes, &packet(0x81, 202, &two)),
        refused(3, 12, 20)
    );
}

#[test]
fn lone_items() {
    let read = |text: &str| read_item(&hex(text));
    assert_eq!(read(""), refused(2, 4, 0));
    assert_eq!(read("01"), refused(2, 4, 1));
    assert_eq!(read("01 00"), Ok((item(1, b""), 2)));
    assert_eq!(read("01 01"), refused(2, 3, 2));
    assert_eq!(read("00 01 61 62"), Ok((item(0, b"a"), 3)));
    assert_eq!(read("08 00"), refused(2, 3, 2));
    assert_eq!(read("08 01 00"), Ok((private(b"", b""), 3)));
    assert_eq!(read("08 01 01 61"), refused(5, 1, 0));
    assert_eq!(read("08 02 01 61"), Ok((private(b"a", b""), 4)));
    assert_eq!(read("08 03 01 61 62"), Ok((private(b"a", b"b"), 5)));
    assert_eq!(read("08 03 03 61 62"), refused(5, 3, 2));
}

#[test]
fn prefixes() {
    assert_eq!(read_prefix(&hex("08 02 01 61")), Ok(b"a".to_vec()));
    assert_eq!(read_prefix(&hex("01 02 01 61")), refused(30, 1, 0));
    assert_eq!(read_prefix(&hex("00 00")), refused(30, 0, 0));
    assert_eq!(read_prefix(&hex("01 02 01")), refused(2, 4, 3));
}

#[test]
fn bye_parts() {
    let read = |first: u8, rest: &[u8]| {
        read_as(Kind::Bye, &packet(first, 203, rest)).map(|packet| match packet.content {
            Content::Bye {
                sources,
                reason,
                tail,
            } => (sources, reason, tail),
            _ => panic!("a BYE"),
        })
    };
    assert_eq!(read(0x80, &[]), Ok((vec![], None, vec![])));
    assert_eq!(read(0x81, &[]), refused(2, 8, 4));
    assert_eq!(read(0x81, &[0, 0, 0, 7]), Ok((vec![7], None, vec![])));
    assert_eq!(
        read(0x80, &[3, 1, 2, 3]),
        Ok((vec![], Some(vec![1, 2, 3]), vec![]))
    );
    assert_eq!(read(0x80, &[4, 1, 2, 3]), refused(2, 9, 8));
    assert_eq!(
        read(0x80, &[0, 1, 2, 3]),
        Ok((vec![], Some(vec![]), vec![1, 2, 3]))
    );
    assert_eq!(read(0xA0, &[4, 0, 0, 4]), Ok((vec![], None, vec![])));
    let bytes = packet(0x81, 203, &[0, 0, 0, 7]);
    assert_eq!(read_source_at(&bytes, 0), Ok(7));
    assert_eq!(read_source_at(&bytes, 1), refused(25, 0, 0));
}

#[test]
fn app_fields() {
    let rest = [0, 0, 0, 9, b'n', 0xFF, 0, 0, 1, 2, 3, 4];
    assert_eq!(
        read_as(Kind::App, &packet(0x9F, 204, &rest)),
        Ok(plain(Content::App {
            subtype: 31,
            ssrc: 9,
            name: [b'n', 0xFF, 0, 0],
            data: vec![1, 2, 3, 4],
        }))
    );
}

const RR: &str = "80 C9 00 01 00 00 00 01";
const CNAME_SDES: &str = "81 CA 00 02 00 00 00 01 01 00 00 00";

fn compound(parts: &[&str]) -> Answer<usize> {
    let bytes: Vec<u8> = parts.iter().flat_map(|part| hex(part)).collect();
    read_compound(&bytes).map(|packets| packets.len())
}

#[test]
fn compound_order() {
    assert_eq!(compound(&[RR, CNAME_SDES]), Ok(2));
    assert_eq!(compound(&["80 C9 00"]), refused(2, 4, 3));
    assert_eq!(compound(&[RR, CNAME_SDES, "80 CC 00"]), refused(2, 4, 3));
    assert_eq!(compound(&["40 00 00 09"]), refused(1, 1, 0));
    assert_eq!(compound(&["A0 00 00 01"]), refused(2, 8, 4));
    assert_eq!(compound(&["A0 C8 00 00", RR]), refused(9, 0, 0));
    assert_eq!(compound(&["80 CA 00 00", RR]), refused(7, 202, 0));
    assert_eq!(compound(&["80 C8 00 00"]), refused(2, 28, 4));
    assert_eq!(compound(&[RR, "80 CA 00 00"]), refused(8, 0, 0));
    assert_eq!(compound(&[RR, "82 CA 00 00"]), refused(2, 4, 0));
}

#[test]
fn compound_keeps_unknown_packets() {
    let unknown = "A3 C0 00 03 01 02 03 04 00 00 00 00 09 09 09 04";
    let bytes = [hex(RR), hex(CNAME_SDES), hex(unknown)].concat();
    let packets = read_compound(&bytes).expect("it is accepted");
    assert_eq!(
        packets[2],
        Packet {
            content: Content::Unknown {
                packet_type: 192,
                low: 3,
                body: vec![1, 2, 3, 4, 0, 0, 0, 0],
            },
            padding: vec![9, 9, 9, 4],
        }
    );
    assert_eq!(compound(&[RR, CNAME_SDES, "A0 C0 00 00"]), refused(4, 0, 0));
    assert_eq!(
        compound(&[RR, CNAME_SDES, "A0 C0 00 01 00 00 00 04"]),
        Ok(3)
    );
    assert_eq!(
        compound(&[RR, CNAME_SDES, "A0 C0 00 01 00 00 00 08"]),
        refused(4, 0, 0)
    );
}

#[test]
fn datagram_walk() {
    let bytes = [hex(RR), hex(CNAME_SDES)].concat();
    assert_eq!(open(&bytes), Ok(0));
    assert_eq!(open(&hex(RR)), refused(8, 0, 0));
    let (_, second) = step(&bytes, 0).expect("the RR");
    assert_eq!(second, 8);
    let (_, end) = step(&bytes, second).expect("the SDES");
    assert_eq!(step(&bytes, end), refused(25, 0, 0));
    assert_eq!(step(&bytes, u64::MAX), refused(25, 0, 0));
    assert_eq!(step(&bytes, 17), refused(2, 4, 3));
    assert_eq!(step(&bytes[8..], 0), refused(7, 202, 0));
    assert_eq!(step(&[], 0), refused(25, 0, 0));
}

#[test]
fn sdes_walk() {
    let bytes = hex("A2 CA 00 05 00 00 00 01 00 00 00 00 00 00 00 02 00 00 00 00 00 00 00 04");
    let walk = open_sdes(&bytes).expect("it is accepted");
    assert_eq!((walk.position, walk.end), (4, 20));
    let (first, walk) = sdes_step(&bytes, walk).expect("the first chunk");
    let (second, walk) = sdes_step(&bytes, walk).expect("the second chunk");
    assert_eq!((first.ssrc, second.ssrc), (1, 2));
    assert_eq!(sdes_step(&bytes, walk), refused(25, 0, 0));
}

#[test]
fn sdes_step_on_other_bytes() {
    let at = |position, end| SdesWalk { position, end };
    let zeros = vec![0; SDES_LIMIT + 8];
    let limit = SDES_LIMIT as u64;
    assert!(sdes_step(&zeros, at(limit - 8, u64::MAX)).is_ok());
    assert_eq!(sdes_step(&zeros, at(limit - 4, u64::MAX)), refused(2, 8, 4));
    assert_eq!(sdes_step(&zeros, at(limit, u64::MAX)), refused(25, 0, 0));
    assert_eq!(sdes_step(&zeros, at(8, 8)), refused(25, 0, 0));
    assert!(sdes_step(&zeros, at(8, 9)).is_ok());
    assert_eq!(sdes_step(&zeros[..8], at(8, 9)), refused(25, 0, 0));
    assert_eq!(sdes_step(&zeros[..8], at(6, 9)), refused(2, 4, 2));
}

#[test]
fn item_walk() {
    let bytes = hex("00 00 00 01 01 01 61 08 01 00 00 00");
    let at = open_items(&bytes).expect("a chunk");
    let (first, at) = item_step(&bytes, at).expect("the first item");
    let (second, at) = item_step(&bytes, at).expect("the second item");
    assert_eq!((first, second), (item(1, b"a"), private(b"", b"")));
    assert_eq!(item_step(&bytes, at), refused(25, 0, 0));
    assert_eq!(item_step(&bytes, 12), refused(25, 0, 0));
    assert_eq!(item_step(&bytes[..8], 7), refused(2, 4, 1));
}
