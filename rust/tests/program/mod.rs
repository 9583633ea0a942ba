//! A program written against rtcp-types 0.3.0. It is compiled as it stands over
//! that crate too, by a test of the oracle.

use rtcp_types::prelude::*;
use rtcp_types::{
    App, Bye, ReceiverReport, ReportBlock, RtcpParseError, RtcpWriteError, Sdes, SdesChunk,
    SdesItem, SenderReport,
};

/// A packet of the program's own.
struct Nack<'a> {
    data: &'a [u8],
}

impl RtcpPacket for Nack<'_> {
    const MIN_PACKET_LEN: usize = 12;
    const PACKET_TYPE: u8 = 205;
}

impl<'a> RtcpPacketParser<'a> for Nack<'a> {
    fn parse(data: &'a [u8]) -> Result<Self, RtcpParseError> {
        if data.len() < Self::MIN_PACKET_LEN {
            return Err(RtcpParseError::Truncated {
                expected: Self::MIN_PACKET_LEN,
                actual: data.len(),
            });
        }
        Ok(Nack { data })
    }

    fn header_data(&self) -> [u8; 4] {
        [self.data[0], self.data[1], self.data[2], self.data[3]]
    }
}

fn write(packet: impl RtcpPacketWriter) -> Result<Vec<u8>, RtcpWriteError> {
    let mut buf = vec![0; packet.calculate_size()?];
    let len = packet.write_into(&mut buf)?;
    buf.truncate(len);
    Ok(buf)
}

fn packets() -> Result<Vec<Vec<u8>>, RtcpWriteError> {
    let block = || {
        ReportBlock::builder(0x01020304)
            .fraction_lost(5)
            .cumulative_lost(0x060708)
            .extended_sequence_number(9)
            .interarrival_jitter(10)
            .last_sender_report_timestamp(11)
            .delay_since_last_sender_report_timestamp(12)
    };
    let sr = SenderReport::builder(1)
        .ntp_timestamp(2)
        .rtp_timestamp(3)
        .packet_count(4)
        .octet_count(5)
        .add_report_block(block())
        .padding(4);
    let rr = ReceiverReport::builder(6)
        .add_report_block(block())
        .add_report_block(ReportBlock::builder(7));
    let owned = String::from("owned");
    let sdes = Sdes::builder()
        .add_chunk(
            SdesChunk::builder(0x08000000)
                .add_item(SdesItem::builder(SdesItem::CNAME, "user@host"))
                .add_item(SdesItem::builder(SdesItem::PRIV, "value").prefix(&b"prefix"[..])),
        )
        .add_chunk(
            SdesChunk::builder(0x09000000)
                .add_item_owned(SdesItem::builder(SdesItem::NOTE, &owned)),
        );
    let bye = Bye::builder()
        .add_source(10)
        .add_source(11)
        .reason("Shutdown");
    let app = App::builder(12, "name")
        .subtype(13)
        .data(b"data")
        .padding(8);
    Ok(vec![
        write(sr)?,
        write(rr)?,
        write(sdes)?,
        write(bye)?,
        write(app)?,
    ])
}

fn describe(data: &[u8]) -> Result<String, RtcpParseError> {
    let reading = match data[1] {
        SenderReport::PACKET_TYPE => {
            let sr = SenderReport::parse(data)?;
            let blocks: Vec<(u32, u8, i64)> = sr
                .report_blocks()
                .map(|block| {
                    let lost = i64::from(block.cumulative_lost());
                    (block.ssrc(), block.fraction_lost(), lost)
                })
                .collect();
            let times = (sr.ntp_timestamp(), sr.rtp_timestamp());
            let counts = (sr.packet_count(), sr.octet_count(), sr.n_reports());
            format!(
                "SR {} {times:?} {counts:?} {blocks:?} {:?}",
                sr.ssrc(),
                sr.padding()
            )
        }
        ReceiverReport::PACKET_TYPE => {
            let rr = ReceiverReport::parse(data)?;
            let last = rr.report_blocks().last().map(|block| {
                (
                    block.ssrc(),
                    block.extended_sequence_number(),
                    block.interarrival_jitter(),
                    block.last_sender_report_timestamp(),
                    block.delay_since_last_sender_report_timestamp(),
                )
            });
            format!("RR {} {} {last:?}", rr.ssrc(), rr.count())
        }
        Sdes::PACKET_TYPE => {
            let sdes = Sdes::parse(data)?;
            let mut text = format!("SDES {}", sdes.count());
            for chunk in sdes.chunks() {
                text += &format!(" [{:08x}", chunk.ssrc());
                for item in chunk.items() {
                    let value = item.get_value_string().expect("text");
                    text += &format!(" {}({}) {value}", item.type_(), item.length());
                }
                text += "]";
            }
            text
        }
        Bye::PACKET_TYPE => {
            let bye = Bye::parse(data)?;
            let ssrcs: Vec<u32> = bye.ssrcs().collect();
            let reason = bye.get_reason_string().map(|reason| reason.expect("text"));
            format!(
                "BYE {ssrcs:?} {reason:?} {:?}",
                bye.reason().map(|reason| reason.len())
            )
        }
        App::PACKET_TYPE => {
            let app = App::parse(data)?;
            let name = app.get_name_string().expect("text");
            let (subtype, padding) = (app.subtype(), app.padding());
            format!(
                "APP {subtype} {} {name} {:?} {padding:?}",
                app.ssrc(),
                app.data()
            )
        }
        Nack::PACKET_TYPE => {
            let nack = Nack::parse(data)?;
            let header = (nack.version(), nack.type_(), nack.subtype(), nack.count());
            format!("NACK {header:?} {}", nack.length())
        }
        other => format!("type {other}"),
    };
    Ok(reading)
}

pub fn run() {
    let packets = packets().expect("five packets");
    let readings: Vec<String> = packets
        .iter()
        .map(|packet| describe(packet).expect("a packet"))
        .collect();
    let expected = [
        "SR 1 (2, 3) (4, 5, 1) [(16909060, 5, 395016)] Some(4)",
        "RR 6 2 Some((7, 0, 0, 0, 0))",
        "SDES 2 [08000000 1(9) user@host 8(12) value] [09000000 7(5) owned]",
        "BYE [10, 11] Some(\"Shutdown\") Some(8)",
        "APP 13 12 name [100, 97, 116, 97] Some(8)",
    ];
    assert_eq!(readings, expected);
    let nack = [0x81, 205, 0, 2, 0, 0, 0, 1, 0, 0, 0, 2];
    let reading = describe(&nack).expect("a packet of the program's own");
    assert_eq!(reading, "NACK (2, 205, 1, 1) 12");
    assert!(describe(&nack[..8]).is_err());

    let cut = ReceiverReport::parse(&packets[1][..28]).err();
    let truncated = RtcpParseError::Truncated {
        expected: 56,
        actual: 28,
    };
    assert_eq!(cut, Some(truncated));
    let other = Bye::parse(&packets[4]).err();
    let mismatch = RtcpParseError::PacketTypeMismatch {
        actual: 204,
        requested: 203,
    };
    assert_eq!(other, Some(mismatch));
    let small = App::builder(1, "name").write_into(&mut [0; 11]);
    assert_eq!(small, Err(RtcpWriteError::OutputTooSmall(12)));
    let padding = write(Bye::builder().padding(3)).err();
    assert_eq!(padding, Some(RtcpWriteError::InvalidPadding { padding: 3 }));
}
