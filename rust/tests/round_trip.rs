//! Random packets and datagrams are written and read as the same fields; changed
//! bytes are refused or read, and what is read is all there.

use bokyjave::prelude::*;
use bokyjave::{
    App, Bye, Compound, CompoundWriter, Packet, PacketBuilder, ReceiverReport, ReportBlock,
    ReportBlockBuilder, Sdes, SdesChunk, SdesItem, SenderReport,
};

/// A generator of numbers (xorshift).
struct Rng(u64);

impl Rng {
    fn next(&mut self) -> u64 {
        self.0 ^= self.0 << 13;
        self.0 ^= self.0 >> 7;
        self.0 ^= self.0 << 17;
        self.0.wrapping_mul(0x2545_F491_4F6C_DD1D) >> 16
    }

    fn below(&mut self, end: usize) -> usize {
        self.next() as usize % end
    }

    fn word(&mut self) -> u32 {
        self.next() as u32
    }

    /// Any number of elements up to a most, often none.
    fn list<T>(&mut self, most: usize, mut element: impl FnMut(&mut Rng) -> T) -> Vec<T> {
        let len = match self.below(4) {
            0 => 0,
            1 => self.below(most + 1),
            2 => most,
            _ => self.below(most.min(4) + 1),
        };
        (0..len).map(|_| element(self)).collect()
    }

    fn bytes(&mut self, most: usize) -> Vec<u8> {
        self.list(most, |rng| rng.next() as u8)
    }
}

/// A packet as it is given to a builder.
#[derive(Debug)]
enum Given {
    Sr(u32, u64, [u32; 3], Vec<[u32; 7]>),
    Rr(u32, Vec<[u32; 7]>),
    Sdes(Vec<(u32, Vec<Item>)>),
    Bye(Vec<u32>, Vec<u8>),
    App(u8, u32, Vec<u8>, Vec<u8>),
}

#[derive(Debug)]
struct Item {
    type_: u8,
    prefix: Vec<u8>,
    value: Vec<u8>,
}

impl Item {
    fn any(rng: &mut Rng) -> Item {
        let type_ = match rng.below(3) {
            0 => SdesItem::PRIV,
            1 => SdesItem::CNAME,
            _ => 1 + rng.below(255) as u8,
        };
        let private = type_ == SdesItem::PRIV;
        let prefix = rng.bytes(if private { 254 } else { 0 });
        let value = rng.bytes(if private { 254 - prefix.len() } else { 255 });
        Item {
            type_,
            prefix,
            value,
        }
    }
}

/// The seven numbers of a block, in its order; of the loss its 32 bits.
fn any_block(rng: &mut Rng) -> [u32; 7] {
    let mut block = [0; 7].map(|_: u32| rng.word());
    block[1] %= 256;
    block[2] = any_loss(rng) as u32;
    block
}

fn any_loss(rng: &mut Rng) -> i32 {
    match rng.below(8) {
        0 => -8_388_608,
        1 => 8_388_607,
        2 => -1,
        _ => rng.word() as i32 >> 8,
    }
}

impl Given {
    fn report(rng: &mut Rng) -> Given {
        let blocks = rng.list(31, any_block);
        if rng.below(2) == 0 {
            return Given::Rr(rng.word(), blocks);
        }
        let numbers = [rng.word(), rng.word(), rng.word()];
        let ntp = u64::from(rng.word()) << 32 | u64::from(rng.word());
        Given::Sr(rng.word(), ntp, numbers, blocks)
    }

    fn any(rng: &mut Rng) -> Given {
        match rng.below(4) {
            0 => Given::report(rng),
            1 => Given::Sdes(rng.list(31, |rng| (rng.word(), rng.list(5, Item::any)))),
            2 => Given::Bye(rng.list(31, Rng::word), rng.bytes(255)),
            _ => {
                let name = rng.list(4, |rng| rng.below(128) as u8);
                let data = rng.list(300, Rng::word);
                let data = data.iter().flat_map(|word| word.to_be_bytes());
                Given::App(rng.below(32) as u8, rng.word(), name, data.collect())
            }
        }
    }

    fn has_cname(&self) -> bool {
        let Given::Sdes(chunks) = self else {
            return false;
        };
        let mut items = chunks.iter().flat_map(|(_, items)| items);
        items.any(|item| item.type_ == SdesItem::CNAME)
    }

    fn builder(&self, padding: u8) -> PacketBuilder<'_> {
        match self {
            Given::Sr(ssrc, ntp, [rtp, packets, octets], blocks) => {
                let sr = SenderReport::builder(*ssrc)
                    .ntp_timestamp(*ntp)
                    .rtp_timestamp(*rtp)
                    .packet_count(*packets)
                    .octet_count(*octets)
                    .padding(padding);
                let add = |sr: bokyjave::SenderReportBuilder, block| sr.add_report_block(block);
                blocks.iter().map(block_builder).fold(sr, add).into()
            }
            Given::Rr(ssrc, blocks) => {
                let rr = ReceiverReport::builder(*ssrc).padding(padding);
                let add = |rr: bokyjave::ReceiverReportBuilder, block| rr.add_report_block(block);
                blocks.iter().map(block_builder).fold(rr, add).into()
            }
            Given::Sdes(chunks) => {
                let mut sdes = Sdes::builder().padding(padding);
                for (ssrc, items) in chunks {
                    let mut chunk = SdesChunk::builder(*ssrc);
                    for item in items {
                        let builder = SdesItem::builder(item.type_, &item.value);
                        chunk = chunk.add_item(builder.prefix(&item.prefix[..]));
                    }
                    sdes = sdes.add_chunk(chunk);
                }
                sdes.into()
            }
            Given::Bye(sources, reason) => {
                let bye = Bye::builder().reason_bytes(&reason[..]).padding(padding);
                let sources = sources.iter();
                sources.fold(bye, |bye, ssrc| bye.add_source(*ssrc)).into()
            }
            Given::App(subtype, ssrc, name, data) => App::builder(*ssrc, name)
                .subtype(*subtype)
                .data(data)
                .padding(padding)
                .into(),
        }
    }

    /// The packet read is the one given.
    fn check(&self, packet: &Packet, padding: u8) {
        let count = usize::from(padding);
        let mut zeros = vec![0; count];
        if let Some(last) = zeros.last_mut() {
            *last = padding;
        }
        assert_eq!(packet.padding_bytes(), zeros);
        assert_eq!(packet.padding(), (padding > 0).then_some(padding));
        match (self, packet) {
            (Given::Sr(ssrc, ntp, [rtp, packets, octets], blocks), Packet::Sr(sr)) => {
                assert_eq!((sr.ssrc(), sr.ntp_timestamp()), (*ssrc, *ntp));
                assert_eq!((sr.rtp_timestamp(), sr.packet_count()), (*rtp, *packets));
                assert_eq!((sr.octet_count(), sr.extension()), (*octets, &[][..]));
                assert_eq!(usize::from(sr.n_reports()), blocks.len());
                assert_eq!(sr.report_blocks().len(), blocks.len());
                assert_eq!(sr.report_blocks().map(numbers).collect::<Vec<_>>(), *blocks);
            }
            (Given::Rr(ssrc, blocks), Packet::Rr(rr)) => {
                assert_eq!((rr.ssrc(), rr.extension()), (*ssrc, &[][..]));
                assert_eq!(usize::from(rr.n_reports()), blocks.len());
                assert_eq!(rr.report_blocks().len(), blocks.len());
                assert_eq!(rr.report_blocks().map(numbers).collect::<Vec<_>>(), *blocks);
            }
            (Given::Sdes(chunks), Packet::Sdes(sdes)) => {
                assert_eq!(usize::from(sdes.n_chunks()), chunks.len());
                assert_eq!(sdes.has_cname(), self.has_cname());
                assert_eq!(sdes.chunks().count(), chunks.len());
                for (read, (ssrc, items)) in sdes.chunks().zip(chunks) {
                    assert_eq!((read.ssrc(), read.items().count()), (*ssrc, items.len()));
                    for (read, item) in read.items().zip(items) {
                        assert_eq!((read.type_(), read.value()), (item.type_, &item.value[..]));
                        let private = item.type_ == SdesItem::PRIV;
                        let prefix = private.then_some(&item.prefix[..]);
                        assert_eq!(read.priv_prefix().ok(), prefix);
                    }
                    let cname = items.iter().find(|item| item.type_ == SdesItem::CNAME);
                    let value = read.cname().map(|item| item.value());
                    assert_eq!(value, cname.map(|item| &item.value[..]));
                }
            }
            (Given::Bye(sources, reason), Packet::Bye(bye)) => {
                assert_eq!(bye.ssrcs().len(), sources.len());
                assert_eq!(bye.ssrcs().collect::<Vec<_>>(), *sources);
                let reason = (!reason.is_empty()).then_some(&reason[..]);
                assert_eq!(bye.reason(), reason);
                let fill = reason.map_or(0, |reason| (1 + reason.len()).wrapping_neg() % 4);
                assert_eq!(bye.tail(), vec![0; fill]);
            }
            (Given::App(subtype, ssrc, name, data), Packet::App(app)) => {
                assert_eq!((app.subtype(), app.ssrc()), (*subtype, *ssrc));
                assert_eq!(app.name()[..name.len()], name[..]);
                assert!(app.name()[name.len()..].iter().all(|byte| *byte == 0));
                assert_eq!(app.data(), data);
            }
            (given, read) => panic!("{given:?} is read as {read:?}"),
        }
    }
}

fn block_builder(block: &[u32; 7]) -> ReportBlockBuilder {
    ReportBlock::builder(block[0])
        .fraction_lost(block[1] as u8)
        .cumulative_lost(block[2] as i32)
        .extended_sequence_number(block[3])
        .interarrival_jitter(block[4])
        .last_sender_report_timestamp(block[5])
        .delay_since_last_sender_report_timestamp(block[6])
}

fn numbers(block: ReportBlock) -> [u32; 7] {
    [
        block.ssrc(),
        block.fraction_lost().into(),
        block.cumulative_lost() as u32,
        block.extended_sequence_number(),
        block.interarrival_jitter(),
        block.last_sender_report_timestamp(),
        block.delay_since_last_sender_report_timestamp(),
    ]
}

#[test]
fn packets_are_read_as_written() {
    let mut rng = Rng(1);
    for _ in 0..3000 {
        let given = Given::any(&mut rng);
        let padding = 4 * rng.below(64) as u8;
        let builder = given.builder(padding);
        let size = builder.calculate_size().expect("a size");
        let mut buf = vec![0x5A; size + rng.below(3)];
        assert_eq!(builder.write_into(&mut buf), Ok(size));
        assert!(buf[size..].iter().all(|byte| *byte == 0x5A));
        let packet = Packet::parse(&buf[..size]).expect("a packet");
        given.check(&packet, padding);
    }
}

/// A datagram: a report, any packets, and a CNAME; the last is padded.
fn any_datagram(rng: &mut Rng) -> (Vec<Given>, u8) {
    let mut packets = vec![Given::report(rng)];
    packets.extend(rng.list(6, Given::any));
    if !packets.iter().any(Given::has_cname) {
        let item = Item {
            type_: SdesItem::CNAME,
            prefix: Vec::new(),
            value: rng.bytes(255),
        };
        packets.push(Given::Sdes(vec![(rng.word(), vec![item])]));
    }
    (packets, 4 * rng.below(3) as u8)
}

fn paddings(packets: &[Given], padding: u8) -> impl Iterator<Item = (&Given, u8)> {
    let last = packets.len() - 1;
    let padded = move |(at, given)| (given, if at == last { padding } else { 0 });
    packets.iter().enumerate().map(padded)
}

fn datagram(rng: &mut Rng) -> Vec<u8> {
    let (packets, padding) = any_datagram(rng);
    let mut builder = Compound::builder();
    for (given, padding) in paddings(&packets, padding) {
        builder = builder.add_packet(given.builder(padding));
    }
    let mut buf = vec![0; builder.calculate_size().expect("a size")];
    assert_eq!(builder.write_into(&mut buf), Ok(buf.len()));

    let mut again = vec![0; buf.len()];
    let mut writer = CompoundWriter::new();
    for (given, padding) in paddings(&packets, padding) {
        let added = writer.add(&mut again, &given.builder(padding));
        assert_eq!(added, Ok(writer.len()));
    }
    assert_eq!(writer.close(), Ok(buf.len()));
    assert_eq!(again, buf);

    let compound = Compound::parse(&buf).expect("a datagram");
    assert_eq!(compound.n_packets(), packets.len());
    assert_eq!(compound.clone().count(), packets.len());
    for (read, (given, padding)) in compound.zip(paddings(&packets, padding)) {
        given.check(&read.expect("a packet"), padding);
    }
    buf
}

#[test]
fn datagrams_are_read_as_written() {
    let mut rng = Rng(2);
    for _ in 0..1000 {
        datagram(&mut rng);
    }
}

/// Every part of a packet that is read, end to end.
fn walked(packet: &Packet) -> usize {
    4 + packet.padding_bytes().len()
        + match packet {
            Packet::Sr(sr) => 24 + 24 * sr.report_blocks().count() + sr.extension().len(),
            Packet::Rr(rr) => 4 + 24 * rr.report_blocks().count() + rr.extension().len(),
            Packet::Sdes(sdes) => sdes.chunks().map(|chunk| chunk.length()).sum(),
            Packet::Bye(bye) => {
                let reason = bye.reason().map_or(0, |reason| 1 + reason.len());
                4 * bye.ssrcs().count() + reason + bye.tail().len()
            }
            Packet::App(app) => 8 + app.data().len(),
            Packet::Unknown(unknown) => unknown.body().len(),
        }
}

#[test]
fn changed_bytes_are_refused_or_read_whole() {
    let mut rng = Rng(3);
    let (mut read, mut refused) = (0, 0);
    for _ in 0..300 {
        let whole = datagram(&mut rng);
        for _ in 0..20 {
            let mut data = whole.clone();
            for _ in 0..rng.below(3) {
                let at = rng.below(data.len().min(64));
                data[at] = rng.next() as u8;
            }
            if rng.below(4) == 0 {
                data.truncate(rng.below(data.len() + 1));
            }
            match Compound::parse(&data) {
                Err(error) => {
                    assert!((1..=9).contains(&error.number()), "{error:?}");
                    refused += 1;
                }
                Ok(compound) => {
                    let n_packets = compound.n_packets();
                    let packets: Vec<Packet> =
                        compound.map(|packet| packet.expect("a packet")).collect();
                    assert_eq!(packets.len(), n_packets);
                    let bytes: Vec<u8> = packets
                        .iter()
                        .flat_map(|packet| packet.bytes())
                        .copied()
                        .collect();
                    assert_eq!(bytes, data);
                    for packet in packets {
                        assert_eq!(walked(&packet), packet.length());
                        if !packet.is_unknown() {
                            assert_eq!(Packet::parse(packet.bytes()), Ok(packet));
                        }
                    }
                    read += 1;
                }
            }
        }
    }
    assert!(
        read > 500 && refused > 500,
        "{read} read, {refused} refused"
    );
}
