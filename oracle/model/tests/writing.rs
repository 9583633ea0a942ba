//! Both sides of every limit of writing, and the order of refusals.

mod common;
use common::*;
use model::*;

#[test]
fn paddings() {
    for padding in 0..=260 {
        let answer = size(&give_bye(0, b"", padding));
        if padding % 4 == 0 && padding <= 252 {
            assert_eq!(answer, Ok(4 + padding));
        } else {
            assert_eq!(answer, refused(11, padding, 0));
        }
    }
    assert_eq!(size(&give_bye(0, b"", u64::MAX)), refused(11, u64::MAX, 0));
    assert_eq!(
        written(&give_bye(0, b"", 8)),
        Ok(hex("A0 CB 00 02 00 00 00 00 00 00 00 08"))
    );
}

#[test]
fn report_order() {
    let large = lost(i32::MAX);
    assert_eq!(size(&give_rr(vec![large; 32], 1)), refused(18, 32, 31));
    for short in 0..3 {
        let Given::Report { mut blocks, .. } = give_rr(vec![large; 32], 1) else {
            panic!("a report");
        };
        match short {
            0 => drop(blocks.fractions.pop()),
            1 => drop(blocks.losses.pop()),
            _ => drop(blocks.words.pop()),
        }
        let given = Given::Report {
            ssrc: 1,
            sender: None,
            blocks,
            padding: 1,
        };
        assert_eq!(size(&given), refused(24, 0, 0));
        let call = Call::Add { given, buffer: 0 };
        assert_eq!(Book::default().turn(&call), refused(24, 0, 0));
    }
    assert_eq!(size(&give_rr(vec![large], 1)), refused(11, 1, 0));
    assert_eq!(
        size(&give_rr(vec![lost(1), lost(1 << 23), large], 0)),
        refused(17, 1 << 23, 8_388_607)
    );
}

fn lost(cumulative_lost: i32) -> Block {
    Block {
        cumulative_lost,
        ..Block::default()
    }
}

fn give_sr(blocks: Vec<Block>, padding: u64) -> Given {
    Given::Report {
        ssrc: 1,
        sender: Some(SenderInfo::default()),
        blocks: BlockLists::of(&blocks),
        padding,
    }
}

/// The first answer of a book with that room, which must be that of a write.
fn answered(given: &Given, buffer: usize) -> Answer<()> {
    let mut bytes = vec![0x5A; buffer];
    let answer = write(given, &mut bytes).map(|_| ());
    if answer.is_err() {
        assert_eq!(bytes, vec![0x5A; buffer]);
    }
    let call = Call::Add {
        given: given.clone(),
        buffer: buffer as u64,
    };
    assert_eq!(Book::default().turn(&call), answer);
    let (mut writer, mut bytes) = (Writer::default(), vec![0x5A; buffer]);
    assert_eq!(writer.add(given, &mut bytes).map(|_| ()), answer);
    answer
}

#[test]
fn losses_in_the_range_are_their_24_bits() {
    for (loss, bits) in [
        (0, [0, 0, 0]),
        (1, [0, 0, 1]),
        (-1, [0xFF, 0xFF, 0xFF]),
        (66_051, [1, 2, 3]),
        (-66_051, [0xFE, 0xFD, 0xFD]),
        (8_388_606, [0x7F, 0xFF, 0xFE]),
        (8_388_607, [0x7F, 0xFF, 0xFF]),
        (-8_388_607, [0x80, 0, 1]),
        (-8_388_608, [0x80, 0, 0]),
    ] {
        for (given, at) in [
            (give_rr(vec![lost(loss)], 0), 13),
            (give_sr(vec![lost(loss)], 0), 33),
        ] {
            assert_eq!(written(&given).expect("it is written")[at..at + 3], bits);
            assert_eq!(answered(&given, at + 19), Ok(()));
            let laid = layout(&written_packet(&given));
            assert_eq!(Ok(laid), written(&given));
        }
    }
}

/// Refusal 17 has the loss modulo 2^32.
#[test]
fn losses_outside_the_range() {
    for (loss, value) in [
        (8_388_608, 8_388_608),
        (-8_388_609, 4_286_578_687),
        (16_777_215, 16_777_215),
        (16_777_216, 16_777_216),
        (-16_777_216, 4_278_190_080),
        (i32::MAX, 2_147_483_647),
        (i32::MIN, 2_147_483_648),
    ] {
        for give in [give_rr, give_sr] {
            let refusal = refused(17, value, 8_388_607);
            assert_eq!(answered(&give(vec![lost(loss)], 0), 100), refusal);
            let second = vec![lost(-1), lost(loss)];
            assert_eq!(answered(&give(second, 4), 100), refusal);
            let both = vec![lost(loss), lost(1 << 23)];
            assert_eq!(answered(&give(both, 0), 100), refusal);
            // 18, 11, 17, 10.
            let many = [vec![lost(0); 31], vec![lost(loss)]].concat();
            let over = refused(18, 32, 31);
            assert_eq!(answered(&give(many.clone(), 3), 0), over);
            assert_eq!(answered(&give(many.clone(), 0), 1000), over);
            let padding = refused(11, 3, 0);
            assert_eq!(answered(&give(many[1..].to_vec(), 3), 0), padding);
            assert_eq!(answered(&give(many[1..].to_vec(), 4), 0), refusal);
        }
    }
    let least = vec![lost(-8_388_608)];
    assert_eq!(answered(&give_rr(least.clone(), 0), 31), refused(10, 32, 0));
    assert_eq!(answered(&give_sr(least, 4), 55), refused(10, 56, 0));
}

#[test]
fn report_bytes() {
    let block = Block {
        ssrc: 0x0102_0304,
        fraction_lost: 5,
        cumulative_lost: 0x06_0708,
        extended_sequence: 0x090A_0B0C,
        jitter: 0x0D0E_0F10,
        last_sr: 0x1112_1314,
        delay: 0x1516_1718,
    };
    let bytes = written(&give_rr(vec![block], 0)).expect("it is written");
    assert_eq!(bytes[..8], hex("81 C9 00 07 11 22 33 44"));
    assert_eq!(bytes[8..], (1..=24).collect::<Vec<u8>>());
    let sender = Given::Report {
        ssrc: 0x0102_0304,
        sender: Some(SenderInfo {
            ntp_time: 0x0506_0708_090A_0B0C,
            rtp_time: 0x0D0E_0F10,
            packet_count: 0x1112_1314,
            octet_count: 0x1516_1718,
        }),
        blocks: BlockLists::default(),
        padding: 0,
    };
    let bytes = written(&sender).expect("it is written");
    assert_eq!(bytes[..4], hex("80 C8 00 06"));
    assert_eq!(bytes[4..], (1..=24).collect::<Vec<u8>>());
}

#[test]
fn lists_disagree() {
    let good = || match give_sdes(&[item(1, b"ab"), private(b"p", b"v")], 3) {
        Given::Sdes { lists, .. } => lists,
        _ => panic!("an SDES"),
    };
    let check = |lists: SdesLists| size(&Given::Sdes { lists, padding: 3 });
    assert_eq!(check(good()), refused(11, 3, 0));
    let changes: [fn(&mut SdesLists); 11] = [
        |lists| lists.ssrcs.push(1),
        |lists| lists.counts.push(0),
        |lists| lists.counts[0] = 1,
        |lists| lists.counts = vec![3],
        |lists| lists.items.types.push(1),
        |lists| lists.items.prefix_lengths.push(0),
        |lists| lists.items.value_lengths.push(0),
        |lists| lists.items.bytes.push(0),
        |lists| lists.items.bytes.truncate(1),
        |lists| lists.items.value_lengths[0] = u64::MAX,
        |lists| lists.items.prefix_lengths = vec![u64::MAX, 2],
    ];
    for change in changes {
        let mut lists = good();
        change(&mut lists);
        assert_eq!(check(lists), refused(24, 0, 0));
    }
}

#[test]
fn sdes_order() {
    let chunks = |count: usize, padding| {
        size(&Given::Sdes {
            lists: SdesLists {
                ssrcs: vec![1; count],
                counts: vec![0; count],
                items: ItemLists::default(),
            },
            padding,
        })
    };
    assert_eq!(chunks(0, 0), Ok(4));
    assert_eq!(chunks(31, 0), Ok(4 + 31 * 8));
    assert_eq!(chunks(32, 1), refused(19, 32, 31));
    assert_eq!(
        size(&give_sdes(&[item(0, &[0; 256])], 1)),
        refused(11, 1, 0)
    );
}

#[test]
fn item_order() {
    let size = size_of_item;
    assert_eq!(size(&item(0, &[0; 256])), refused(23, 0, 0));
    assert_eq!(size(&item(1, &[0; 255])), Ok(257));
    assert_eq!(size(&item(1, &[0; 256])), refused(20, 256, 255));
    assert_eq!(size(&private(&[0; 254], b"")), Ok(257));
    assert_eq!(size(&private(&[0; 255], &[0; 300])), refused(21, 255, 254));
    assert_eq!(size(&private(&[0; 254], b"v")), refused(20, 1, 0));
    let skipped = Item {
        item_type: 1,
        prefix: vec![0; 300],
        value: vec![b'v'],
    };
    assert_eq!(size(&skipped), Ok(3));
    let two = [item(1, &[0; 256]), item(0, b"")];
    assert_eq!(model::size(&give_sdes(&two, 0)), refused(20, 256, 255));
}

#[test]
fn item_bytes() {
    let mut buffer = [0x5A; 8];
    assert_eq!(write_item(&private(b"p", b"vw"), &mut buffer), Ok(6));
    assert_eq!(buffer[..], hex("08 04 01 70 76 77 5A 5A"));
    assert_eq!(
        write_item(&private(b"p", b"vw"), &mut buffer[..5]),
        refused(10, 6, 0)
    );
    assert_eq!(buffer[..], hex("08 04 01 70 76 77 5A 5A"));
}

#[test]
fn chunk_bytes_and_limit() {
    let chunk = |items: &[Item]| ChunkLists {
        ssrc: 1,
        items: ItemLists::of(items),
    };
    let mut buffer = [0x5A; 14];
    assert_eq!(write_chunk(&chunk(&[item(1, b"ab")]), &mut buffer), Ok(12));
    assert_eq!(buffer[..], hex("00 00 00 01 01 02 61 62 00 00 00 00 5A 5A"));

    let mut items = vec![item(2, &[0; 255]); 1019];
    items.push(item(1, &[0; 250]));
    assert_eq!(size_of_chunk(&chunk(&items)), Ok(262_140));
    assert_eq!(size(&give_sdes(&items, 0)), Ok(262_144));
    assert_eq!(size(&give_sdes(&items, 4)), refused(22, 0, 0));
    items[1019] = item(1, &[0; 251]);
    assert_eq!(size_of_chunk(&chunk(&items)), refused(22, 0, 0));
    assert_eq!(size(&give_sdes(&items, 0)), refused(22, 0, 0));

    let mut disagreeing = chunk(&[item(0, b"")]);
    disagreeing.items.bytes.push(0);
    assert_eq!(size_of_chunk(&disagreeing), refused(24, 0, 0));
}

#[test]
fn bye_order() {
    let long = [b'r'; 256];
    assert_eq!(size(&give_bye(31, b"", 0)), Ok(4 + 31 * 4));
    assert_eq!(size(&give_bye(32, &long, 1)), refused(15, 32, 31));
    assert_eq!(size(&give_bye(31, &long, 1)), refused(11, 1, 0));
    assert_eq!(size(&give_bye(31, &long, 0)), refused(16, 256, 255));
    assert_eq!(
        written(&give_bye(0, b"abc", 0)),
        Ok(hex("80 CB 00 01 03 61 62 63"))
    );
    assert_eq!(written(&give_bye(0, b"", 0)), Ok(hex("80 CB 00 00")));
}

#[test]
fn app_order() {
    assert_eq!(size(&give_app(32, b"names", 1, 1)), refused(12, 32, 31));
    assert_eq!(
        size(&give_app(u64::MAX, b"", 0, 0)),
        refused(12, u64::MAX, 31)
    );
    assert_eq!(size(&give_app(31, b"names", 1, 1)), refused(13, 0, 0));
    assert_eq!(size(&give_app(31, &[128], 1, 1)), refused(13, 0, 0));
    assert_eq!(size(&give_app(31, &[127], 1, 1)), refused(14, 1, 0));
    assert_eq!(size(&give_app(31, b"name", 4, 1)), refused(11, 1, 0));
    assert_eq!(
        written(&give_app(31, b"n", 4, 0)),
        Ok(hex("9F CC 00 03 00 00 00 01 6E 00 00 00 DA DA DA DA"))
    );
    assert_eq!(size(&give_app(0, b"", 262_128, 4)), Ok(262_144));
    assert_eq!(size(&give_app(0, b"", 262_132, 4)), refused(22, 0, 0));
}

#[test]
fn buffers() {
    let given = give_bye(1, b"", 0);
    let mut buffer = [0x5A; 10];
    assert_eq!(write(&given, &mut buffer[..7]), refused(10, 8, 0));
    assert_eq!(buffer, [0x5A; 10]);
    assert_eq!(write(&given, &mut buffer), Ok(8));
    assert_eq!(buffer[8..], [0x5A; 2]);
    assert_eq!(
        write(&give_app(0, b"", 262_136, 0), &mut []),
        refused(22, 0, 0)
    );
}

#[test]
fn writer_order() {
    let cname = give_sdes(&[item(CNAME, b"")], 0);
    let bad = give_bye(32, b"", 0);
    let state = |length, closed, padded| Writer {
        length,
        closed,
        padded,
        cname: true,
    };
    let add = |writer: Writer, given: &Given, room: usize| {
        let (mut after, mut buffer) = (writer, vec![0x5A; room]);
        let answer = after.add(given, &mut buffer);
        if answer.is_err() {
            assert_eq!((after, buffer), (writer, vec![0x5A; room]));
        }
        answer
    };
    assert_eq!(add(state(0, true, true), &bad, 0), refused(26, 0, 0));
    assert_eq!(add(state(0, false, true), &bad, 0), refused(29, 0, 0));
    assert_eq!(add(state(0, false, false), &bad, 0), refused(27, 0, 0));
    assert_eq!(add(state(8, false, false), &bad, 0), refused(15, 32, 31));
    assert_eq!(add(state(8, false, false), &cname, 7), refused(10, 8, 0));
    assert_eq!(add(state(8, false, false), &cname, 8), refused(10, 20, 0));
    assert_eq!(add(state(8, false, false), &cname, 19), refused(10, 20, 0));
    assert_eq!(add(state(8, false, false), &cname, 20), Ok(12));
    assert_eq!(
        add(state(u64::MAX, false, false), &cname, 20),
        refused(10, u64::MAX, 0)
    );
    assert_eq!(add(Writer::default(), &give_rr(vec![], 0), 8), Ok(8));
}

#[test]
fn writer_closes() {
    let mut writer = Writer::default();
    assert_eq!(writer.close(), refused(28, 0, 0));
    let mut buffer = [0; 64];
    assert_eq!(writer.add(&give_rr(vec![], 0), &mut buffer), Ok(8));
    assert_eq!(writer.close(), refused(28, 0, 0));
    let cname = give_sdes(&[item(2, b""), item(CNAME, b"")], 4);
    assert_eq!(writer.add(&cname, &mut buffer), Ok(16 + 4));
    assert_eq!(
        writer.add(&give_rr(vec![], 0), &mut buffer),
        refused(29, 0, 0)
    );
    assert_eq!(writer.close(), Ok(()));
    assert_eq!(writer.close(), refused(26, 0, 0));
    assert_eq!(
        writer.add(&give_rr(vec![], 0), &mut buffer),
        refused(26, 0, 0)
    );
}

#[test]
fn book_lists_the_packets_with_the_three_changes() {
    let mut book = Book::default();
    let mut add = |given: Given| {
        book.turn(&Call::Add {
            given,
            buffer: 1000,
        })
    };
    assert_eq!(add(give_bye(1, b"", 0)), refused(27, 0, 0));
    assert_eq!(add(give_rr(vec![], 0)), Ok(()));
    assert_eq!(add(give_app(1, b"ab", 0, 0)), Ok(()));
    assert_eq!(add(give_bye(0, b"", 0)), Ok(()));
    let prefixed = Item {
        item_type: CNAME,
        prefix: b"skipped".to_vec(),
        value: b"kept".to_vec(),
    };
    assert_eq!(add(give_sdes(&[prefixed], 0)), Ok(()));
    assert_eq!(add(give_bye(0, b"a", 4)), Ok(()));
    assert_eq!(add(give_rr(vec![], 0)), refused(29, 0, 0));
    assert_eq!(book.turn(&Call::Close), Ok(()));
    assert_eq!(book.turn(&Call::Close), refused(26, 0, 0));

    let contents: Vec<&Content> = book.packets.iter().map(|packet| &packet.content).collect();
    assert_eq!(
        contents,
        [
            &rr(0x1122_3344),
            &Content::App {
                subtype: 1,
                ssrc: 1,
                name: [b'a', b'b', 0, 0],
                data: vec![],
            },
            &Content::Bye {
                sources: vec![],
                reason: None,
                tail: vec![],
            },
            &sdes(vec![Chunk {
                ssrc: 0x1122_3344,
                items: vec![item(CNAME, b"kept")],
            }]),
            &Content::Bye {
                sources: vec![],
                reason: Some(b"a".to_vec()),
                tail: vec![0, 0],
            },
        ]
    );
    assert_eq!(book.packets[4].padding, [0, 0, 0, 4]);
}

#[test]
fn book_room() {
    let mut book = Book::default();
    let mut add = |buffer: u64| {
        book.turn(&Call::Add {
            given: give_rr(vec![], 0),
            buffer,
        })
    };
    assert_eq!(add(7), refused(10, 8, 0));
    assert_eq!(add(8), Ok(()));
    assert_eq!(add(7), refused(10, 8, 0));
    assert_eq!(add(15), refused(10, 16, 0));
    assert_eq!(add(16), Ok(()));
}
