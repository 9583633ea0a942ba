//! Worked examples of the rules in docs/PROTOCOL.md, every refusal number that a
//! call of this crate can get, and the empty cases.

use bokyjave::prelude::*;
use bokyjave::{
    App, Bye, Compound, CompoundWriter, LookupAnswer, Packet, PacketBuilder, ReceiverReport,
    ReceiverReportBuilder, ReportBlock, ReportBlockBuilder, RtcpParseError, RtcpWriteError, Sdes,
    SdesChunk, SdesItem, SenderReport, SenderReportBuilder, Unknown,
};

const RR: &str = "80 C9 00 01 11 22 33 44";
const CNAME: &str = "81 CA 00 03 11 22 33 44 01 03 61 40 62 00 00 00";

fn bytes(hex: &str) -> Vec<u8> {
    let byte = |hex| u8::from_str_radix(hex, 16).expect("a byte");
    hex.split_whitespace().map(byte).collect()
}

fn unread<T: std::fmt::Debug>(read: Result<T, RtcpParseError>) -> (u64, u64, u64) {
    let error = read.expect_err("a refusal");
    (error.number(), error.first(), error.second())
}

fn code(error: RtcpWriteError) -> (u64, u64, u64) {
    (error.number(), error.first(), error.second())
}

/// The bytes that a packet is written as. Its size is theirs, the byte after
/// them stays, and a buffer with one byte less gets 10.
fn written(packet: &dyn RtcpPacketWriter) -> Vec<u8> {
    let size = packet.calculate_size().expect("a size");
    let mut buf = vec![0x5A; size + 1];
    assert_eq!(packet.write_into(&mut buf), Ok(size));
    assert_eq!(buf.pop(), Some(0x5A));
    let mut short = vec![0x5A; size - 1];
    assert_eq!(
        packet.write_into(&mut short),
        Err(RtcpWriteError::OutputTooSmall(size))
    );
    assert_eq!(short, vec![0x5A; size - 1]);
    buf
}

/// Why a packet is not written; the size says the same, and no byte changes.
fn unwritten(packet: &dyn RtcpPacketWriter) -> (u64, u64, u64) {
    let mut buf = vec![0x5A; 300_000];
    let error = packet.write_into(&mut buf).expect_err("a refusal");
    assert!(buf.iter().all(|byte| *byte == 0x5A));
    assert_eq!(packet.calculate_size(), Err(error));
    code(error)
}

fn named(ssrc: u32) -> bokyjave::SdesBuilder<'static> {
    let name = SdesItem::builder(SdesItem::CNAME, "a@b");
    Sdes::builder().add_chunk(SdesChunk::builder(ssrc).add_item(name))
}

#[test]
fn row_1_a_receiver_report_without_block() {
    let data = bytes(RR);
    let rr = ReceiverReport::parse(&data).expect("row 1");
    assert_eq!((rr.ssrc(), rr.n_reports()), (0x11223344, 0));
    assert_eq!(rr.report_blocks().len(), 0);
    assert_eq!(rr.report_blocks().next(), None);
    assert_eq!((rr.padding(), rr.padding_bytes()), (None, &[][..]));
    assert_eq!(rr.extension(), []);
    assert_eq!((rr.version(), rr.type_(), rr.length()), (2, 201, 8));
    assert_eq!(rr.bytes(), data);
    assert_eq!(written(&ReceiverReport::builder(0x11223344)), data);
}

#[test]
fn row_2_a_cname() {
    let data = bytes(CNAME);
    let sdes = Sdes::parse(&data).expect("row 2");
    assert_eq!((sdes.n_chunks(), sdes.has_cname()), (1, true));
    let chunks: Vec<SdesChunk> = sdes.chunks().collect();
    assert_eq!(chunks.len(), 1);
    assert_eq!((chunks[0].ssrc(), chunks[0].length()), (0x11223344, 12));
    let items: Vec<SdesItem> = chunks[0].items().collect();
    assert_eq!(items.len(), 1);
    assert_eq!((items[0].type_(), items[0].length()), (SdesItem::CNAME, 3));
    assert_eq!(items[0].value(), b"a@b");
    assert_eq!(items[0].get_value_string().as_deref(), Ok("a@b"));
    assert_eq!(chunks[0].cname(), Some(items[0]));
    assert_eq!(written(&named(0x11223344)), data);
}

#[test]
fn row_3_datagrams() {
    let (rr, cname) = (bytes(RR), bytes(CNAME));
    let both = [&rr[..], &cname].concat();
    let compound = Compound::parse(&both).expect("row 3");
    assert_eq!(compound.n_packets(), 2);
    let packets: Vec<Packet> = compound.map(|packet| packet.expect("a packet")).collect();
    let expected = [
        Packet::Rr(ReceiverReport::parse(&rr).expect("an RR")),
        Packet::Sdes(Sdes::parse(&cname).expect("an SDES packet")),
    ];
    assert_eq!(packets, expected);
    assert_eq!(unread(Compound::parse(&rr)), (8, 0, 0));
    assert_eq!(unread(Compound::parse(&cname)), (7, 202, 0));
    assert_eq!(unread(Compound::parse(&[])), (2, 4, 0));
}

#[test]
fn rows_4_to_8_sdes() {
    let two = bytes("82 CA 00 04 00 00 00 01 00 00 00 00 00 00 00 10 00 00 00 00");
    let sdes = Sdes::parse(&two).expect("row 4");
    let chunks: Vec<(u32, usize, usize)> = sdes
        .chunks()
        .map(|chunk| (chunk.ssrc(), chunk.length(), chunk.items().count()))
        .collect();
    assert_eq!(chunks, [(1, 8, 0), (16, 8, 0)]);
    let zero = bytes("A0 CA 00 00");
    assert_eq!(unread(Sdes::parse(&zero)), (4, 0, 0));
    let prefix = bytes("81 CA 00 03 00 00 00 01 08 01 05 00 00 00 00 00");
    assert_eq!(unread(Sdes::parse(&prefix)), (5, 5, 0));
    let items = bytes("81 CA 00 03 00 00 00 01 01 03 61 62 63 02 00 00");
    let sdes = Sdes::parse(&items).expect("row 7");
    let items: Vec<(u8, &[u8])> = sdes
        .chunks()
        .flat_map(|chunk| chunk.items())
        .map(|item| (item.type_(), item.value()))
        .collect();
    assert_eq!(items, [(1, &b"abc"[..]), (2, &b""[..])]);
    let open = bytes("81 CA 00 01 00 00 00 01");
    assert_eq!(unread(Sdes::parse(&open)), (2, 8, 4));
}

#[test]
fn row_9_a_padded_bye() {
    let data = bytes("A1 CB 00 03 11 22 33 44 02 61 62 00 00 00 00 04");
    let builder = Bye::builder()
        .add_source(0x11223344)
        .reason("ab")
        .padding(4);
    assert_eq!(builder.get_padding(), Some(4));
    assert_eq!(written(&builder), data);
    let bye = Bye::parse(&data).expect("row 9");
    assert_eq!(bye.ssrcs().collect::<Vec<u32>>(), [0x11223344]);
    assert_eq!(bye.reason(), Some(&b"ab"[..]));
    assert_eq!(bye.get_reason_string(), Some(Ok("ab".to_string())));
    assert_eq!((bye.tail(), bye.padding()), (&[0][..], Some(4)));
    assert_eq!(bye.padding_bytes(), [0, 0, 0, 4]);
}

#[test]
fn row_10_limits() {
    let blocks = |n| {
        let add = |rr: ReceiverReportBuilder, i| {
            rr.add_report_block(ReportBlock::builder(i).cumulative_lost(8_388_607))
        };
        (0..n).fold(ReceiverReport::builder(7), add)
    };
    let data = written(&blocks(31));
    let rr = ReceiverReport::parse(&data).expect("31 blocks");
    let read: Vec<(u32, i32)> = rr
        .report_blocks()
        .map(|block| (block.ssrc(), block.cumulative_lost()))
        .collect();
    assert_eq!(read, (0..31).map(|i| (i, 8_388_607)).collect::<Vec<_>>());
    assert_eq!(unwritten(&blocks(32)), (18, 32, 31));
    let reason = "x".repeat(256);
    let data = written(&Bye::builder().reason(&reason[1..]));
    let bye = Bye::parse(&data).expect("a long reason");
    assert_eq!(bye.reason(), Some(&reason.as_bytes()[1..]));
    assert_eq!(unwritten(&Bye::builder().reason(reason)), (16, 256, 255));
    let private = |value| {
        let item = SdesItem::builder(SdesItem::PRIV, value).prefix(vec![b'p'; 10]);
        Sdes::builder().add_chunk(SdesChunk::builder(1).add_item(item))
    };
    let value = "v".repeat(245);
    let data = written(&private(&value[1..]));
    let sdes = Sdes::parse(&data).expect("a long PRIV item");
    let item = sdes.chunks().flat_map(|chunk| chunk.items()).next();
    let item = item.expect("an item");
    assert_eq!(item.priv_prefix(), Ok(&[b'p'; 10][..]));
    assert_eq!(item.priv_prefix_len(), Ok(10));
    assert_eq!((item.length(), item.value().len()), (255, 244));
    assert_eq!(unwritten(&private(&value)), (20, 245, 244));
    let big = vec![1; 262_136];
    let data = written(&App::builder(1, "name").data(&big[4..]));
    let app = App::parse(&data).expect("a large APP packet");
    assert_eq!((app.length(), app.data().len()), (262_144, 262_132));
    assert_eq!(unwritten(&App::builder(1, "name").data(&big)), (22, 0, 0));
}

/// A block with this loss.
fn losing(lost: &i32) -> ReportBlockBuilder {
    ReportBlock::builder(8).cumulative_lost(*lost)
}

fn rr_losing(losses: &[i32]) -> ReceiverReportBuilder {
    let add = ReceiverReportBuilder::add_report_block;
    losses
        .iter()
        .map(losing)
        .fold(ReceiverReport::builder(7), add)
}

fn sr_losing(losses: &[i32]) -> SenderReportBuilder {
    let add = SenderReportBuilder::add_report_block;
    losses
        .iter()
        .map(losing)
        .fold(SenderReport::builder(7), add)
}

/// The 24 bits of a loss in a block, in both reports, and read back.
#[test]
fn row_10_losses_and_their_24_bits() {
    for (lost, bits) in [
        (0, [0, 0, 0]),
        (1, [0, 0, 1]),
        (8_388_607, [0x7F, 0xFF, 0xFF]),
        (-8_388_608, [0x80, 0, 0]),
        (-8_388_607, [0x80, 0, 1]),
        (-65_536, [0xFF, 0, 0]),
        (-1, [0xFF, 0xFF, 0xFF]),
    ] {
        let data = written(&rr_losing(&[-2, lost]));
        assert_eq!(data[37..40], bits, "{lost}");
        let rr = ReceiverReport::parse(&data).expect("an RR");
        let read = rr.report_blocks().map(|block| block.cumulative_lost());
        assert_eq!(read.collect::<Vec<_>>(), [-2, lost]);
        let read = rr.report_block(1).map(|block| block.cumulative_lost());
        assert_eq!(read, Ok(lost));
        let block = ReportBlock::parse(&data[32..]).map(|block| block.cumulative_lost());
        assert_eq!(block, Ok(lost));

        let data = written(&sr_losing(&[lost, -2]));
        assert_eq!(data[33..36], bits, "{lost}");
        let sr = SenderReport::parse(&data).expect("an SR");
        let read = sr.report_blocks().map(|block| block.cumulative_lost());
        assert_eq!(read.collect::<Vec<_>>(), [lost, -2]);
    }
}

/// Losses past the limits: 17 with their low 32 bits, of the first block that has
/// one, after the padding's and the count's own refusals.
#[test]
fn row_10_losses_that_are_refused() {
    for (losses, low) in [
        (&[8_388_608][..], 8_388_608),
        (&[-8_388_609], 4_286_578_687),
        (&[16_777_215], 16_777_215),
        (&[i32::MAX], 2_147_483_647),
        (&[i32::MIN], 2_147_483_648),
        (&[-8_388_608, 8_388_608], 8_388_608),
        (&[8_388_607, -8_388_609], 4_286_578_687),
        (&[8_388_609, -8_388_609], 8_388_609),
        (&[-8_388_610, 8_388_608], 4_286_578_686),
    ] {
        let refused = (17, low, 8_388_607);
        let (rr, sr) = (rr_losing(losses), sr_losing(losses));
        assert_eq!(unwritten(&rr), refused, "{losses:?}");
        assert_eq!(unwritten(&sr), refused, "{losses:?}");
        let mut buf = [0x5A; 128];
        for packet in [&rr as &dyn RtcpPacketWriter, &sr] {
            let error = packet.write_into(&mut []).expect_err("no room");
            assert_eq!(code(error), refused);
            let mut writer = CompoundWriter::new();
            let error = writer.add(&mut buf, packet).expect_err("a refusal");
            assert_eq!((code(error), writer.len(), buf), (refused, 0, [0x5A; 128]));
        }
        assert_eq!(unwritten(&rr.padding(3)), (11, 3, 0));
        assert_eq!(unwritten(&sr.padding(3)), (11, 3, 0));
    }
    assert_eq!(unwritten(&rr_losing(&[8_388_608; 32])), (18, 32, 31));
}

#[test]
fn refusals_of_reading() {
    let rr = |hex| {
        let data = bytes(hex);
        unread(ReceiverReport::parse(&data))
    };
    assert_eq!(rr("40 C9 00 01 11 22 33 44"), (1, 1, 0));
    assert_eq!(rr("80 C9 00 00"), (2, 8, 4));
    assert_eq!(rr("80 C9 00 01 11 22 33 44 00 00 00 00"), (3, 8, 12));
    assert_eq!(rr("A0 C9 00 01 11 22 33 00"), (4, 0, 0));
    assert_eq!(rr("80 C8 00 01 11 22 33 44"), (6, 200, 201));
    let sr = bytes("80 C8 00 05 00 00 00 00 00 00 00 00 00 00 00 00 00 00 00 00 00 00 00 00");
    assert_eq!(unread(SenderReport::parse(&sr)), (2, 28, 24));
    let item = bytes("08 04 04 61 62 63");
    assert_eq!(unread(SdesItem::parse(&item)), (5, 4, 3));
    assert_eq!(unread(SdesItem::parse(&item[..2])), (2, 6, 2));
    assert_eq!(unread(SdesItem::parse(&item[..1])), (2, 4, 1));
    assert_eq!(unread(SdesItem::parse(&[])), (2, 4, 0));
    assert_eq!(unread(SdesChunk::parse(&[])), (2, 4, 0));
    assert_eq!(unread(ReportBlock::parse(&[0; 23])), (2, 24, 23));
    assert_eq!(unread(ReportBlock::parse(&[0; 25])), (3, 24, 25));
    assert_eq!(unread(Bye::parse(&[0x81, 203, 0, 0])), (2, 8, 4));
    assert_eq!(unread(App::parse(&[0x80, 204, 0, 0])), (2, 12, 4));
    let padded = bytes("A0 C9 00 02 11 22 33 44 00 00 00 04");
    let datagram = [&padded[..], &bytes(CNAME)].concat();
    assert_eq!(unread(Compound::parse(&datagram)), (9, 0, 0));
}

#[test]
fn refusals_of_an_index_and_a_prefix() {
    let data = bytes(RR);
    let rr = ReceiverReport::parse(&data).expect("an RR");
    assert_eq!(unread(rr.report_block(0)), (25, 0, 0));
    let data = written(&SenderReport::builder(1).add_report_block(ReportBlock::builder(2)));
    let sr = SenderReport::parse(&data).expect("an SR");
    assert_eq!(sr.report_block(0).map(|block| block.ssrc()), Ok(2));
    assert_eq!(unread(sr.report_block(1)), (25, 0, 0));
    assert_eq!(unread(sr.report_block(usize::MAX)), (25, 0, 0));
    let data = written(&Bye::builder().add_source(3));
    let bye = Bye::parse(&data).expect("a BYE packet");
    assert_eq!(bye.source(0), Ok(3));
    assert_eq!(unread(bye.source(1)), (25, 0, 0));
    let item = SdesItem::parse(&[2, 1, 0x61]).expect("an item");
    assert_eq!(unread(item.priv_prefix()), (30, 2, 0));
    assert_eq!(unread(item.priv_prefix_len()), (30, 2, 0));
}

/// An SDES packet with a chunk of one item for each pair of an SSRC and a type.
fn described(chunks: &[(u32, u8)], padding: u8) -> Vec<u8> {
    let sdes = Sdes::builder().padding(padding);
    let sdes = chunks.iter().fold(sdes, |sdes, (ssrc, type_)| {
        sdes.add_chunk(SdesChunk::builder(*ssrc).add_item(SdesItem::builder(*type_, "a")))
    });
    written(&sdes)
}

/// An answer that is not none: the sixth chunk.
fn sixth() -> LookupAnswer {
    let six: Vec<(u32, u8)> = (1..=6).map(|ssrc| (ssrc, SdesItem::CNAME)).collect();
    let packet = described(&six, 0);
    let mut answer = [LookupAnswer::NONE];
    let sdes = Sdes::parse(&packet).expect("six chunks");
    sdes.lookup(&[6], &mut answer).expect("a lookup");
    assert_eq!(answer[0].chunk(), Some(5));
    answer[0]
}

/// The chunks that a lookup answers. Two answers past the list stay, and the
/// visits are at most the chunks.
fn looked_up(packet: &[u8], ssrcs: &[u32]) -> Vec<Option<u8>> {
    let sdes = Sdes::parse(packet).expect("an SDES packet");
    let mut answers = vec![sixth(); ssrcs.len() + 2];
    let visits = sdes.lookup(ssrcs, &mut answers).expect("a lookup");
    assert!(visits <= usize::from(sdes.n_chunks()));
    assert_eq!(answers.split_off(ssrcs.len()), [sixth(); 2]);
    answers.into_iter().map(LookupAnswer::chunk).collect()
}

#[test]
fn lookups() {
    // A name, a note, then the name of 8 in two chunks, and an SSRC of 0.
    let (name, note) = (SdesItem::CNAME, SdesItem::NOTE);
    let chunks = [(7, name), (8, note), (8, name), (8, name), (0, name)];
    for padding in [0, 4, 252] {
        let packet = described(&chunks, padding);
        assert!(looked_up(&packet, &[]).is_empty());
        assert_eq!(looked_up(&packet, &[7, 9]), [Some(0), None]);
        assert_eq!(looked_up(&packet, &[8]), [Some(2)]);
        assert_eq!(looked_up(&packet, &[0, 8, 7]), [Some(4), Some(2), Some(0)]);
        let twice = looked_up(&packet, &[8, 9, 8, 7, 9, 7]);
        assert_eq!(twice, [Some(2), None, Some(2), Some(0), None, Some(0)]);
        assert_eq!(looked_up(&packet, &[9; 100]), [None; 100]);
    }
    assert_eq!(looked_up(&described(&[], 0), &[0, 7]), [None; 2]);
    // Padding is no chunk, and the last byte of it no SSRC.
    assert_eq!(looked_up(&described(&[], 12), &[0, 12]), [None; 2]);
    assert_eq!(looked_up(&described(&[(7, note)], 0), &[7]), [None]);
    // A chunk without items, then one with another item before its CNAME.
    let mixed = bytes("82 CA 00 05 00 00 00 07 00 00 00 00 00 00 00 07 02 01 61 01 01 62 00 00");
    assert_eq!(looked_up(&mixed, &[7]), [Some(1)]);
    let empty = bytes("81 CA 00 02 00 00 00 07 01 00 00 00");
    assert_eq!(looked_up(&empty, &[7]), [Some(0)]);
}

#[test]
fn lookups_in_31_chunks() {
    let chunks: Vec<(u32, u8)> = (1..=31).map(|ssrc| (ssrc, SdesItem::CNAME)).collect();
    let packet = described(&chunks, 0);
    let (rising, falling): (Vec<u32>, Vec<u32>) = ((0..=32).collect(), (1..=31).rev().collect());
    let mut answers = looked_up(&packet, &rising);
    assert_eq!((answers.pop(), answers[0]), (Some(None), None));
    assert!(answers.into_iter().skip(1).eq((0..31).map(Some)));
    let answers = looked_up(&packet, &falling);
    assert!(answers.into_iter().eq((0..31).rev().map(Some)));
    let same = vec![(0x11223344, SdesItem::CNAME); 31];
    assert_eq!(looked_up(&described(&same, 0), &[0x11223344]), [Some(0)]);
}

/// 31 where the list is longer by one or more; no answer changes.
#[test]
fn refusals_of_a_lookup() {
    let data = bytes(CNAME);
    let sdes = Sdes::parse(&data).expect("a CNAME");
    assert_eq!(unread(sdes.lookup(&[7], &mut [])), (31, 0, 0));
    let mut answers = [sixth(); 2];
    for ssrcs in [&[0x11223344; 3][..], &[7; 3], &[0x11223344; 100]] {
        assert_eq!(unread(sdes.lookup(ssrcs, &mut answers)), (31, 0, 0));
        let refused = sdes.lookup(ssrcs, &mut answers);
        assert_eq!(refused, Err(RtcpParseError::AnswersTooShort));
        assert_eq!(answers, [sixth(); 2]);
    }
    assert_eq!(
        sdes.lookup(&[], &mut []).map(|visits| visits <= 1),
        Ok(true)
    );
    assert!(sdes.lookup(&[7, 0x11223344], &mut answers).is_ok());
    assert_eq!(answers.map(LookupAnswer::chunk), [None, Some(0)]);
}

#[test]
fn refusals_of_writing() {
    let many = |n| (0..n).fold(Bye::builder(), |bye, i| bye.add_source(i));
    assert_eq!(unwritten(&many(32)), (15, 32, 31));
    assert_eq!(written(&many(31)).len(), 4 + 31 * 4);
    for padding in [1, 3, 253, 255] {
        let refused = (11, padding.into(), 0);
        assert_eq!(unwritten(&Bye::builder().padding(padding)), refused);
        assert_eq!(
            unwritten(&SenderReport::builder(1).padding(padding)),
            refused
        );
        assert_eq!(
            unwritten(&ReceiverReport::builder(1).padding(padding)),
            refused
        );
        assert_eq!(unwritten(&named(1).padding(padding)), refused);
        assert_eq!(
            unwritten(&App::builder(1, "name").padding(padding)),
            refused
        );
    }
    assert_eq!(
        unwritten(&App::builder(1, "name").subtype(32)),
        (12, 32, 31)
    );
    assert_eq!(unwritten(&App::builder(1, "names")), (13, 0, 0));
    assert_eq!(unwritten(&App::builder(1, "é")), (13, 0, 0));
    assert_eq!(unwritten(&App::builder(1, &[0x80])), (13, 0, 0));
    assert_eq!(
        unwritten(&App::builder(1, "name").data(&[0; 3])),
        (14, 3, 0)
    );
    let chunks = |n| {
        (0..n).fold(Sdes::builder(), |sdes, i| {
            sdes.add_chunk(SdesChunk::builder(i))
        })
    };
    assert_eq!(unwritten(&chunks(32)), (19, 32, 31));
    assert_eq!(written(&chunks(31)).len(), 4 + 31 * 8);
    let one = |item| Sdes::builder().add_chunk(SdesChunk::builder(1).add_item(item));
    let value = "v".repeat(256);
    assert_eq!(
        unwritten(&one(SdesItem::builder(1, &value))),
        (20, 256, 255)
    );
    let prefix = SdesItem::builder(SdesItem::PRIV, "").prefix(vec![0; 255]);
    assert_eq!(unwritten(&one(prefix)), (21, 255, 254));
    assert_eq!(unwritten(&one(SdesItem::builder(0, ""))), (23, 0, 0));
}

#[test]
fn lone_chunks_and_items() {
    let mut buf = [0x5A; 16];
    let chunk = SdesChunk::builder(0x11223344).add_item(SdesItem::builder(1, "a@b"));
    assert_eq!(chunk.calculate_size(), Ok(12));
    assert_eq!(chunk.write_into(&mut buf), Ok(12));
    assert_eq!(buf[..12], bytes(CNAME)[4..]);
    assert_eq!(buf[12..], [0x5A; 4]);
    let small = chunk.write_into(&mut [0; 11]).expect_err("a refusal");
    assert_eq!(code(small), (10, 12, 0));
    let item = SdesItem::builder(0, "");
    assert_eq!(item.write_into(&mut buf).map_err(code), Err((23, 0, 0)));
    assert_eq!(item.calculate_size().map_err(code), Err((23, 0, 0)));
    let skipped = SdesItem::builder(1, "a").prefix(&b"skipped"[..]);
    assert_eq!(skipped.calculate_size(), Ok(3));
    let full = "v".repeat(255);
    let add = |chunk: bokyjave::SdesChunkBuilder<'static>, _| {
        chunk.add_item_owned(SdesItem::builder(1, &full))
    };
    let large = (0..1020).fold(SdesChunk::builder(1), add);
    assert_eq!(large.calculate_size().map_err(code), Err((22, 0, 0)));
}

#[test]
fn refusals_of_the_compound_writer() {
    let mut buf = [0; 64];
    let mut writer = CompoundWriter::new();
    assert!(writer.is_empty());
    let bye = Bye::builder();
    let rr = ReceiverReport::builder(1);
    assert_eq!(writer.add(&mut buf, &bye).map_err(code), Err((27, 0, 0)));
    assert_eq!(writer.close().map_err(code), Err((28, 0, 0)));
    assert_eq!(writer.add(&mut buf, &rr), Ok(8));
    for (len, needed) in [(7, 8), (8, 12), (11, 12)] {
        let refused = writer.add(&mut buf[..len], &bye).map_err(code);
        assert_eq!(refused, Err((10, needed, 0)));
    }
    assert_eq!(writer.len(), 8);
    assert_eq!(writer.close().map_err(code), Err((28, 0, 0)));
    let mut padded = writer;
    assert_eq!(padded.add(&mut buf, &bye.clone().padding(4)), Ok(16));
    assert_eq!(padded.add(&mut buf, &rr).map_err(code), Err((29, 0, 0)));
    assert_eq!(writer.add(&mut buf, &named(1)), Ok(24));
    assert_eq!(writer.close(), Ok(24));
    assert_eq!(writer.add(&mut buf, &rr).map_err(code), Err((26, 0, 0)));
    assert_eq!(writer.close().map_err(code), Err((26, 0, 0)));
    assert_eq!(
        Compound::parse(&buf[..24]).map(|read| read.n_packets()),
        Ok(2)
    );
}

/// Whatever the packets, faulty ones included, and whatever the buffer's length.
#[test]
fn a_compound_builder_answers_as_the_compound_writer() {
    let packet = |which| -> PacketBuilder<'static> {
        match which {
            0 => ReceiverReport::builder(1).into(),
            1 => named(1).into(),
            2 => named(1).padding(4).into(),
            3 => Bye::builder().into(),
            _ => App::builder(1, "names").into(),
        }
    };
    for list in 0..125 {
        let list = [list % 5, list / 5 % 5, list / 25].map(packet);
        let start = Compound::builder();
        let builder = list
            .iter()
            .cloned()
            .fold(start, |all, one| all.add_packet(one));
        for len in 0..72 {
            let mut buf = vec![0x5A; len];
            let mut writer = CompoundWriter::new();
            let added = list
                .iter()
                .try_for_each(|packet| writer.add(&mut buf, packet).map(drop));
            let closed = added.and_then(|()| writer.close());
            if closed.is_err() {
                buf.fill(0x5A);
            }
            let mut built = vec![0x5A; len];
            assert_eq!(builder.write_into(&mut built), closed);
            assert_eq!(built, buf);
        }
    }
}

#[test]
fn a_compound_builder_leaves_the_buffer_on_a_refusal() {
    let refused = |compound: bokyjave::CompoundBuilder, len| {
        let mut buf = vec![0x5A; len];
        let error = compound.write_into(&mut buf).expect_err("a refusal");
        assert_eq!(buf, vec![0x5A; len]);
        let whole = compound.calculate_size().map_err(code);
        (code(error), whole)
    };
    let rr = || Compound::builder().add_packet(ReceiverReport::builder(1));
    let good = || rr().add_packet(named(1)).add_packet(Bye::builder());
    for (len, needed) in [(0, 8), (7, 8), (8, 24), (23, 24), (24, 28), (27, 28)] {
        assert_eq!(refused(good(), len), ((10, needed, 0), Ok(28)));
    }
    assert_eq!(
        refused(Compound::builder(), 64),
        ((28, 0, 0), Err((28, 0, 0)))
    );
    assert_eq!(refused(rr(), 64), ((28, 0, 0), Err((28, 0, 0))));
    let first = Compound::builder().add_packet(named(1));
    assert_eq!(refused(first, 64), ((27, 0, 0), Err((27, 0, 0))));
    let padded = rr()
        .add_packet(named(1).padding(4))
        .add_packet(Bye::builder());
    assert_eq!(refused(padded, 64), ((29, 0, 0), Err((29, 0, 0))));
    let faulty = rr()
        .add_packet(named(1))
        .add_packet(App::builder(1, "names"));
    assert_eq!(refused(faulty, 64), ((13, 0, 0), Err((13, 0, 0))));
    let mut buf = [0x5A; 29];
    assert_eq!(good().write_into(&mut buf), Ok(28));
    assert_eq!(buf[..8], [0x80, 201, 0, 1, 0, 0, 0, 1]);
    assert_eq!(buf[24..], [0x80, 203, 0, 0, 0x5A]);
}

#[test]
fn empty_parts() {
    let none = Sdes::parse(&[0x80, 202, 0, 0]).expect("an SDES packet without chunk");
    assert_eq!((none.n_chunks(), none.has_cname()), (0, false));
    assert_eq!(none.chunks().next(), None);
    assert_eq!(written(&Sdes::builder()), [0x80, 202, 0, 0]);
    let chunk = SdesChunk::parse(&[0, 0, 0, 7, 0, 0, 0, 0]).expect("a chunk without item");
    assert_eq!((chunk.ssrc(), chunk.length()), (7, 8));
    assert_eq!((chunk.items().next(), chunk.cname()), (None, None));
    let item = SdesItem::parse(&[1, 0]).expect("an item without value");
    assert_eq!((item.type_(), item.length(), item.value()), (1, 0, &[][..]));
    let item = SdesItem::parse(&[8, 1, 0]).expect("a PRIV item without prefix and value");
    assert_eq!(item.priv_prefix(), Ok(&[][..]));
    assert_eq!(item.value(), []);
    let bye = Bye::parse(&[0x80, 203, 0, 0]).expect("a BYE packet without source");
    assert_eq!((bye.ssrcs().next(), bye.reason()), (None, None));
    assert_eq!(bye.get_reason_string(), None);
    assert_eq!(written(&Bye::builder()), [0x80, 203, 0, 0]);
    assert_eq!(written(&Bye::builder().reason("")), [0x80, 203, 0, 0]);
    let bye = Bye::parse(&[0x80, 203, 0, 1, 0, 1, 2, 3]).expect("an empty reason");
    assert_eq!((bye.reason(), bye.tail()), (Some(&[][..]), &[1, 2, 3][..]));
    let data = written(&App::builder(7, ""));
    assert_eq!(data, [0x80, 204, 0, 2, 0, 0, 0, 7, 0, 0, 0, 0]);
    let app = App::parse(&data).expect("an APP packet without data");
    assert_eq!((app.name(), app.data()), ([0; 4], &[][..]));
    assert_eq!(app.get_name_string().as_deref(), Ok(""));
}

#[test]
fn no_byte() {
    assert_eq!(unread(SenderReport::parse(&[])), (2, 28, 0));
    assert_eq!(unread(ReceiverReport::parse(&[])), (2, 8, 0));
    assert_eq!(unread(Sdes::parse(&[])), (2, 4, 0));
    assert_eq!(unread(Bye::parse(&[])), (2, 4, 0));
    assert_eq!(unread(App::parse(&[])), (2, 12, 0));
    assert_eq!(unread(Packet::parse(&[])), (2, 4, 0));
    assert_eq!(unread(ReportBlock::parse(&[])), (2, 24, 0));
    let small = Bye::builder().write_into(&mut []).expect_err("a refusal");
    assert_eq!(code(small), (10, 4, 0));
}

#[test]
fn packets_of_any_kind() {
    let kinds: [PacketBuilder; 5] = [
        SenderReport::builder(1).padding(8).into(),
        ReceiverReport::builder(2).padding(8).into(),
        named(3).padding(8).into(),
        Bye::builder().padding(8).into(),
        App::builder(4, "name").subtype(31).padding(8).into(),
    ];
    for (kind, builder) in (200..).zip(kinds) {
        assert_eq!(builder.get_padding(), Some(8));
        let data = written(&builder);
        let packet = Packet::parse(&data).expect("a packet");
        assert_eq!((packet.type_(), packet.length()), (kind, data.len()));
        assert_eq!((packet.padding(), packet.is_unknown()), (Some(8), false));
        assert_eq!(packet.padding_bytes(), [0, 0, 0, 0, 0, 0, 0, 8]);
        assert_eq!(packet.header_data(), data[..4]);
        assert_eq!(packet.subtype(), data[0] & 0x1f);
        assert_eq!(packet.try_as::<SenderReport>().is_ok(), kind == 200);
        assert_eq!(packet.try_as::<ReceiverReport>().is_ok(), kind == 201);
        assert_eq!(Sdes::try_from(packet).is_ok(), kind == 202);
        assert_eq!(Bye::try_from(&packet).is_ok(), kind == 203);
        assert_eq!(App::try_from(packet).map(Packet::from).is_ok(), kind == 204);
    }
    let unknown = Packet::parse(&[0x80, 205, 0, 0]).expect("a packet");
    assert!(unknown.is_unknown());
    assert_eq!((unknown.type_(), unknown.length()), (205, 4));
    let Packet::Unknown(unknown) = unknown else {
        panic!("another type");
    };
    assert_eq!(Packet::from(unknown), Packet::Unknown(unknown));
    assert_eq!(unread(unknown.try_as::<Bye>()), (6, 205, 203));
    // Lone packets of other types: too short, another version, too long, padding.
    for (data, refused) in [
        (&[0x80, 205, 0][..], (2, 4, 3)),
        (&[0x40, 205, 0, 0], (1, 1, 0)),
        (&[0x80, 205, 0, 1], (2, 8, 4)),
        (&[0x80, 205, 0, 0, 0], (3, 4, 5)),
        (&[0xA0, 205, 0, 0, 0, 0, 0, 4], (3, 4, 8)),
        (&[0xA0, 205, 0, 1, 0, 0, 0, 3], (4, 0, 0)),
    ] {
        assert_eq!(unread(Unknown::parse(data)), refused);
        assert_eq!(unread(Packet::parse(data)), refused);
    }
    let padded = [0xA1, 205, 0, 2, 1, 2, 3, 4, 0, 0, 0, 4];
    let padded = Unknown::parse(&padded).expect("a packet");
    assert_eq!((padded.count(), padded.padding()), (1, Some(4)));
    assert_eq!(padded.body(), [1, 2, 3, 4]);
    for kind in 200..=204 {
        assert_eq!(unread(Packet::parse(&[0x80, kind, 0])), (2, 4, 3));
    }
    let data = bytes(CNAME);
    let packet = Packet::parse(&data).expect("an SDES packet");
    assert_eq!(unread(packet.try_as::<Bye>()), (6, 202, 203));
    assert_eq!(unread(App::try_from(&packet)), (6, 202, 204));
    assert_eq!(unread(SenderReport::try_from(packet)), (2, 28, 16));
}

#[test]
fn a_packet_of_another_type() {
    let unknown = bytes("AF CD 00 02 01 02 03 04 00 00 00 04");
    let datagram = [bytes(RR), bytes(CNAME), unknown.clone()].concat();
    let last = Compound::parse(&datagram).expect("a datagram").last();
    let packet = last.expect("a last packet").expect("a packet");
    assert_eq!((packet.type_(), packet.is_unknown()), (205, true));
    assert_eq!((packet.count(), packet.length()), (15, 12));
    assert_eq!((packet.padding(), packet.bytes()), (Some(4), &unknown[..]));
    let Packet::Unknown(packet) = packet else {
        panic!("{packet:?}");
    };
    assert_eq!(packet.data(), unknown);
    assert_eq!(
        (packet.type_(), packet.count(), packet.subtype()),
        (205, 15, 15)
    );
    assert_eq!((packet.length(), packet.body()), (12, &[1, 2, 3, 4][..]));
    assert_eq!(packet.padding(), Some(4));
    assert_eq!(packet.padding_bytes(), [0, 0, 0, 4]);
}

/// A packet of a program's own, made from those of other types.
struct Nack(u32);

impl RtcpPacket for Nack {
    const MIN_PACKET_LEN: usize = 12;
    const PACKET_TYPE: u8 = 205;
}

impl<'a> TryFrom<&'a Unknown<'a>> for Nack {
    type Error = RtcpParseError;

    fn try_from(packet: &'a Unknown<'a>) -> Result<Self, RtcpParseError> {
        let expected = Self::MIN_PACKET_LEN;
        let actual = packet.length();
        let missing = RtcpParseError::Truncated { expected, actual };
        let ssrc = packet.body().first_chunk().ok_or(missing)?;
        Ok(Nack(u32::from_be_bytes(*ssrc)))
    }
}

impl<'a> TryFrom<&'a Packet<'a>> for Nack {
    type Error = RtcpParseError;

    fn try_from(packet: &'a Packet<'a>) -> Result<Self, RtcpParseError> {
        match packet {
            Packet::Unknown(packet) => packet.try_as(),
            _ => Err(RtcpParseError::PacketTypeMismatch {
                actual: packet.type_(),
                requested: Self::PACKET_TYPE,
            }),
        }
    }
}

#[test]
fn a_packet_as_one_of_a_programs_own() {
    let nack = bytes("81 CD 00 02 00 00 00 07 00 00 00 08");
    let packet = Packet::parse(&nack).expect("a packet");
    assert_eq!(packet.try_as::<Nack>().map(|nack| nack.0), Ok(7));
    let empty = Packet::parse(&[0x81, 205, 0, 0]).expect("a packet");
    assert_eq!(
        unread(empty.try_as::<Nack>().map(|nack| nack.0)),
        (2, 12, 4)
    );
    let data = bytes(CNAME);
    let sdes = Packet::parse(&data).expect("an SDES packet");
    assert_eq!(
        unread(sdes.try_as::<Nack>().map(|nack| nack.0)),
        (6, 202, 205)
    );
}

#[test]
fn parts_are_the_callers_own_bytes() {
    let data = bytes("A1 CB 00 03 11 22 33 44 02 61 62 00 00 00 00 04");
    let bye = Bye::parse(&data).expect("a BYE packet");
    let reason = bye.reason().expect("a reason");
    assert!(std::ptr::eq(reason, &data[9..11]));
    let data = bytes(CNAME);
    let value = {
        let sdes = Sdes::parse(&data).expect("an SDES packet");
        let item = sdes.chunks().flat_map(|chunk| chunk.items()).next();
        item.expect("an item").value()
    };
    assert!(std::ptr::eq(value, &data[10..13]));
}

#[test]
fn bytes_after_a_lone_part_are_not_its_own() {
    let chunk = bytes("00 00 00 07 01 01 61 00");
    let after = [&chunk[..], &[1, 2, 3]].concat();
    let read = SdesChunk::parse(&after).expect("a chunk");
    assert_eq!(read.length(), 8);
    assert_eq!(Ok(read), SdesChunk::parse(&chunk));
    let item = bytes("08 03 01 61 62");
    let after = [&item[..], &[1, 2, 3]].concat();
    let read = SdesItem::parse(&after).expect("an item");
    assert_eq!((read.length(), read.value()), (3, &b"b"[..]));
    assert_eq!(Ok(read), SdesItem::parse(&item));
}

#[test]
fn an_index_and_an_iterator_give_the_same() {
    let blocks = || (1..=3).map(ReportBlock::builder);
    let rr = blocks().fold(ReceiverReport::builder(7), |rr, b| rr.add_report_block(b));
    let sr = blocks().fold(SenderReport::builder(7), |sr, b| sr.add_report_block(b));
    let bye = (1..=3).fold(Bye::builder(), |bye, i| bye.add_source(i));
    let (rr, sr, bye) = (written(&rr), written(&sr), written(&bye));
    let rr = ReceiverReport::parse(&rr).expect("an RR");
    let sr = SenderReport::parse(&sr).expect("an SR");
    let bye = Bye::parse(&bye).expect("a BYE packet");
    let (mut in_rr, mut in_sr, mut in_bye) = (rr.report_blocks(), sr.report_blocks(), bye.ssrcs());
    for (i, ssrc) in (1..=3).enumerate() {
        let left = 3 - i;
        assert_eq!((in_rr.len(), in_sr.len(), in_bye.len()), (left, left, left));
        assert_eq!(rr.report_block(i).ok(), in_rr.next());
        assert_eq!(sr.report_block(i).ok(), in_sr.next());
        assert_eq!(bye.source(i).ok(), in_bye.next());
        assert_eq!(rr.report_block(i).map(|block| block.ssrc()), Ok(ssrc));
        assert_eq!(sr.report_block(i).map(|block| block.ssrc()), Ok(ssrc));
        assert_eq!(bye.source(i), Ok(ssrc));
    }
    assert_eq!(
        (in_rr.next(), in_sr.next(), in_bye.next()),
        (None, None, None)
    );
}

#[test]
fn a_walk_tells_an_empty_reason_from_none() {
    let packets = [RR, CNAME, "80 CB 00 01 00 00 00 00", "80 CB 00 00"];
    let datagram: Vec<u8> = packets.iter().flat_map(|packet| bytes(packet)).collect();
    let compound = Compound::parse(&datagram).expect("a datagram");
    let reasons: Vec<Option<&[u8]>> = compound
        .filter_map(|packet| match packet {
            Ok(Packet::Bye(bye)) => Some(bye.reason()),
            _ => None,
        })
        .collect();
    assert_eq!(reasons, [Some(&[][..]), None]);
}

#[test]
fn owned_parts_are_the_same() {
    let (bye, sdes) = {
        let text = String::from("text");
        let item = SdesItem::builder(SdesItem::PRIV, &text).prefix(text.as_bytes());
        let chunk = SdesChunk::builder(1).add_item_owned(item);
        (
            Bye::builder().reason_owned(&text),
            Sdes::builder().add_chunk(chunk),
        )
    };
    assert_eq!(written(&bye), written(&Bye::builder().reason("text")));
    let item = SdesItem::builder(SdesItem::PRIV, "text").prefix(&b"text"[..]);
    let borrowed = Sdes::builder().add_chunk(SdesChunk::builder(1).add_item(item));
    assert_eq!(written(&sdes), written(&borrowed));
}

/// The constants are those by which the library refuses.
#[test]
fn constants() {
    fn least<'a, P: RtcpPacketParser<'a> + std::fmt::Debug>() {
        let refused = (2, P::MIN_PACKET_LEN as u64, 0);
        assert_eq!(unread(P::parse(&[])), refused);
    }
    fn of_kind<'a, P: RtcpPacketParser<'a> + std::fmt::Debug>() {
        least::<P>();
        let refused = unread(P::parse(&[0x80; 28]));
        assert_eq!(refused, (6, 0x80, P::PACKET_TYPE.into()));
        assert_eq!((P::VERSION, P::MAX_COUNT), (2, 31));
    }
    of_kind::<SenderReport>();
    of_kind::<ReceiverReport>();
    of_kind::<Sdes>();
    of_kind::<Bye>();
    of_kind::<App>();
    least::<Packet>();
    let block = (2, ReportBlock::EXPECTED_SIZE as u64, 0);
    assert_eq!(unread(ReportBlock::parse(&[])), block);
    let name = [b'n'; App::NAME_LEN + 1];
    assert_eq!(App::builder(1, &name[1..]).calculate_size(), Ok(12));
    assert_eq!(unwritten(&App::builder(1, &name)), (13, 0, 0));
    let types = [
        SdesItem::CNAME,
        SdesItem::NAME,
        SdesItem::EMAIL,
        SdesItem::PHONE,
        SdesItem::LOC,
        SdesItem::TOOL,
        SdesItem::NOTE,
        SdesItem::PRIV,
    ];
    assert_eq!(types, [1, 2, 3, 4, 5, 6, 7, 8]);
}
