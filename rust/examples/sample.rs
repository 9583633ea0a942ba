//! The main job over real datagrams: reads files of hex lines, prints the loss
//! meter and the participants, writes a compound to a file and reads it back.

use bokyjave::{
    Bye, Compound, CompoundBuilder, Packet, ReceiverReport, ReportBlock, RtcpParseError, Sdes,
    SdesChunk, SdesItem,
};
use std::collections::BTreeMap;
use std::error::Error;
use std::process::ExitCode;

const OWN: u32 = 0x0B0C0D0E;
const CNAME: &str = "bridge@hall.example";
const REASON: &str = "end of sample";
/// The most blocks that a report has.
const MOST: usize = 31;

#[derive(Default)]
struct Monitor {
    /// For each source, who sent the last block about it, and the block.
    meter: BTreeMap<u32, (u32, ReportBlock)>,
    /// The CNAME of each source that has not left.
    participants: BTreeMap<u32, Vec<u8>>,
    /// Those that sent a BYE. A packet that comes after it does not list them
    /// again (RFC 3550 6.2.1).
    left: BTreeMap<u32, Vec<u8>>,
    /// The NTP time of the last report of each sender.
    senders: BTreeMap<u32, u64>,
}

impl Monitor {
    fn read(&mut self, datagram: &[u8]) -> Result<(), RtcpParseError> {
        for packet in Compound::parse(datagram)? {
            match packet? {
                Packet::Sr(sr) => {
                    self.senders.insert(sr.ssrc(), sr.ntp_timestamp());
                    self.update_meter(sr.ssrc(), sr.report_blocks());
                }
                Packet::Rr(rr) => self.update_meter(rr.ssrc(), rr.report_blocks()),
                Packet::Sdes(sdes) => self.update_participants(&sdes),
                Packet::Bye(bye) => {
                    for ssrc in bye.ssrcs() {
                        let cname = self.participants.remove(&ssrc);
                        self.left.entry(ssrc).or_insert(cname.unwrap_or_default());
                    }
                }
                Packet::App(_) | Packet::Unknown(_) => {}
            }
        }
        Ok(())
    }

    fn update_meter(&mut self, from: u32, blocks: impl Iterator<Item = ReportBlock>) {
        for block in blocks {
            self.meter.insert(block.ssrc(), (from, block));
        }
    }

    fn update_participants(&mut self, sdes: &Sdes) {
        for chunk in sdes.chunks() {
            let (ssrc, Some(cname)) = (chunk.ssrc(), chunk.cname()) else {
                continue;
            };
            if !self.left.contains_key(&ssrc) {
                self.participants.insert(ssrc, cname.value().to_vec());
            }
        }
    }

    fn print(&self) {
        println!("loss meter: {} sources", self.meter.len());
        for (ssrc, (from, block)) in &self.meter {
            let (fraction, lost) = (block.fraction_lost(), block.cumulative_lost());
            println!("  {ssrc:08x}: {fraction}/256, {lost} in all, by {from:08x}");
        }
        for (title, list) in [("participants", &self.participants), ("left", &self.left)] {
            println!("{title}: {}", list.len());
            for (ssrc, cname) in list {
                println!("  {ssrc:08x}: {}", cname.escape_ascii());
            }
        }
    }

    /// The senders to report on, with the middle of the NTP time of each.
    fn reported(&self) -> Vec<(u32, u32)> {
        let senders = self.senders.iter();
        senders
            .filter(|(ssrc, _)| !self.left.contains_key(ssrc))
            .map(|(ssrc, time)| (*ssrc, (time >> 16) as u32))
            .take(MOST)
            .collect()
    }

    /// An RR about the senders, an SDES packet with our CNAME, and a BYE.
    fn compound(&self) -> CompoundBuilder<'static> {
        let mut rr = ReceiverReport::builder(OWN);
        for (ssrc, middle) in self.reported() {
            let block = ReportBlock::builder(ssrc).last_sender_report_timestamp(middle);
            rr = rr.add_report_block(block);
        }
        let name = SdesItem::builder(SdesItem::CNAME, CNAME);
        Compound::builder()
            .add_packet(rr)
            .add_packet(Sdes::builder().add_chunk(SdesChunk::builder(OWN).add_item(name)))
            .add_packet(Bye::builder().add_source(OWN).reason(REASON))
    }
}

/// Reads what was written, and says whether it is what was given.
fn is_read_back(monitor: &Monitor, datagram: &[u8]) -> Result<bool, RtcpParseError> {
    let packets = Compound::parse(datagram)?.collect::<Result<Vec<_>, _>>()?;
    let [Packet::Rr(rr), Packet::Sdes(sdes), Packet::Bye(bye)] = packets[..] else {
        return Ok(false);
    };
    let blocks: Vec<(u32, u32)> = rr
        .report_blocks()
        .map(|block| (block.ssrc(), block.last_sender_report_timestamp()))
        .collect();
    let names: Vec<(u32, &[u8])> = sdes
        .chunks()
        .flat_map(|chunk| chunk.cname().map(|cname| (chunk.ssrc(), cname.value())))
        .collect();
    Ok((rr.ssrc(), blocks) == (OWN, monitor.reported())
        && names == [(OWN, CNAME.as_bytes())]
        && bye.ssrcs().eq([OWN])
        && bye.reason() == Some(REASON.as_bytes()))
}

/// The datagram in a line: hex digits, after a tab where there is one.
fn bytes(line: &str) -> Result<Vec<u8>, Box<dyn Error>> {
    let hex = line.split('\t').next_back().unwrap_or_default();
    if hex.len() % 2 != 0 || !hex.is_ascii() {
        return Err("a byte has two hex digits".into());
    }
    let byte = |at| Ok(u8::from_str_radix(&hex[at..at + 2], 16)?);
    (0..hex.len()).step_by(2).map(byte).collect()
}

fn read_file(monitor: &mut Monitor, file: &str) -> Result<(), Box<dyn Error>> {
    let text = std::fs::read_to_string(file).map_err(|error| format!("{file}: {error}"))?;
    println!("{file}: {} datagrams", text.lines().count());
    for (at, line) in text.lines().enumerate() {
        if let Err(refusal) = monitor.read(&bytes(line)?) {
            println!("  line {} refused: {refusal}", at + 1);
        }
    }
    Ok(())
}

fn write(monitor: &Monitor, file: &str) -> Result<(), Box<dyn Error>> {
    let mut buf = [0; 1500];
    let len = monitor.compound().write_into(&mut buf)?;
    let hex: String = buf[..len]
        .iter()
        .map(|byte| format!("{byte:02x}"))
        .collect();
    std::fs::write(file, hex + "\n")?;
    if !is_read_back(monitor, &buf[..len])? {
        return Err("what was written is not what is read".into());
    }
    println!("compound written to {file} and read back: {len} bytes");
    Ok(())
}

fn run(words: &[String]) -> Result<(), Box<dyn Error>> {
    let [output, inputs @ ..] = words else {
        return Err("usage: sample OUTPUT FILE...".into());
    };
    let mut monitor = Monitor::default();
    for file in inputs {
        read_file(&mut monitor, file)?;
    }
    monitor.print();
    write(&monitor, output)
}

fn main() -> ExitCode {
    let words: Vec<String> = std::env::args().skip(1).collect();
    match run(&words) {
        Ok(()) => ExitCode::SUCCESS,
        Err(error) => {
            eprintln!("{error}");
            ExitCode::FAILURE
        }
    }
}
