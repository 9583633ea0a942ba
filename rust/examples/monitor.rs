//! Takes the datagrams of a session, counts the RTP packets of each source,
//! updates a loss meter and a list of participants from the RTCP, and writes
//! receiver reports.
//!
//! ```text
//! monitor        the lines of `SAMPLE` below
//! monitor HEX    one datagram
//! monitor -      the lines of standard input
//! ```
//!
//! A line is `ARRIVAL HEX`, a datagram that came at that time, or `ARRIVAL report`,
//! where a report is due. The time is of a clock of 8,000 ticks a second, as the
//! timestamps of the RTP packets are; it wraps at 2^32. A report is also written at
//! the end.

use bokyjave::{
    Compound, LookupAnswer, Packet, ReceiverReport, Reception, ReportBlock, RtcpParseError,
    RtcpWriteError, Sdes, SdesChunk, SdesItem,
};
use std::collections::BTreeMap;
use std::error::Error;
use std::process::ExitCode;

/// RTP packets of a source, of which one is lost, and between them an SR of it with
/// a block, an SDES packet with two names, and a BYE of the second.
const SAMPLE: &str = concat!(
    "1000 8000fffe0000000011223344\n",
    "1160 8000ffff000000a011223344\n",
    "1200 81c8000c11223344eea48d64df4ff8650000ac440000001000000400",
    "556677880500000a00001234000000070000000000000000",
    "82ca0007112233440109616374407374616765005566778801046d69636b0000",
    "81cb000155667788\n",
    "1490 80000001000001e011223344\n",
    "1640 800000020000028011223344\n",
);

/// Ticks of a second.
const CLOCK_RATE: u64 = 8000;

/// The most blocks that a report has.
const MOST: usize = 31;

/// What an RTP packet's fixed header has for its receiver.
struct Rtp {
    seq: u16,
    timestamp: u32,
    ssrc: u32,
}

impl Rtp {
    /// The header, where the datagram is RTP. RTP and RTCP come to one port; 192 to
    /// 223 in the second byte are packet types of RTCP (RFC 5761).
    fn of(datagram: &[u8]) -> Option<Rtp> {
        let header: &[u8; 12] = datagram.first_chunk()?;
        let word = |at: usize| u32::from_be_bytes(header[at..][..4].try_into().expect("4 bytes"));
        if header[0] >> 6 != 2 || (192..=223).contains(&header[1]) {
            return None;
        }
        Some(Rtp {
            seq: word(0) as u16,
            timestamp: word(4),
            ssrc: word(8),
        })
    }
}

#[derive(Default)]
struct Monitor {
    /// When the last line was.
    now: u32,
    /// The last block about each source.
    meter: BTreeMap<u32, ReportBlock>,
    /// Each source that sent a report or that a block or a chunk is about, with
    /// its CNAME once that is known.
    participants: BTreeMap<u32, Option<Vec<u8>>>,
    /// What is counted of each source that RTP packets came from.
    receptions: BTreeMap<u32, Reception>,
    /// Of each source that sent a report, the middle 32 bits of the last one's NTP
    /// time, and when it came.
    senders: BTreeMap<u32, (u32, u32)>,
}

impl Monitor {
    fn take_line(&mut self, line: &str) -> Result<(), Box<dyn Error>> {
        let (arrival, what) = line.split_once(' ').ok_or("a line is ARRIVAL HEX")?;
        self.now = arrival.parse()?;
        if what == "report" {
            return self.print_report();
        }
        self.take_datagram(what)
    }

    fn take_datagram(&mut self, hex: &str) -> Result<(), Box<dyn Error>> {
        let datagram = bytes(hex)?;
        match Rtp::of(&datagram) {
            Some(rtp) => self.count(&rtp),
            None => self.read(&datagram)?,
        }
        Ok(())
    }

    /// The first packet of a source makes its reception, and then counts as every
    /// other does.
    fn count(&mut self, rtp: &Rtp) {
        let reception = self.receptions.entry(rtp.ssrc);
        let reception = reception.or_insert_with(|| Reception::new(rtp.seq));
        reception.update(rtp.seq, rtp.timestamp, self.now);
    }

    fn read(&mut self, datagram: &[u8]) -> Result<(), RtcpParseError> {
        for packet in Compound::parse(datagram)? {
            match packet? {
                Packet::Sr(sr) => {
                    let middle = (sr.ntp_timestamp() >> 16) as u32;
                    self.senders.insert(sr.ssrc(), (middle, self.now));
                    self.read_report(sr.ssrc(), sr.report_blocks());
                }
                Packet::Rr(rr) => self.read_report(rr.ssrc(), rr.report_blocks()),
                Packet::Sdes(sdes) => self.read_names(&sdes)?,
                Packet::Bye(bye) => bye.ssrcs().for_each(|ssrc| self.left(ssrc)),
                Packet::App(_) | Packet::Unknown(_) => {}
            }
        }
        Ok(())
    }

    /// What was counted of the one that left is forgotten; the last block about it
    /// stays on the meter.
    fn left(&mut self, ssrc: u32) {
        self.participants.remove(&ssrc);
        self.receptions.remove(&ssrc);
        self.senders.remove(&ssrc);
    }

    fn read_report(&mut self, ssrc: u32, blocks: impl Iterator<Item = ReportBlock>) {
        self.participants.entry(ssrc).or_default();
        for block in blocks {
            self.meter.insert(block.ssrc(), block);
            self.participants.entry(block.ssrc()).or_default();
        }
    }

    /// One call for all participants says which chunk has the name of each.
    fn read_names(&mut self, sdes: &Sdes) -> Result<(), RtcpParseError> {
        for chunk in sdes.chunks() {
            self.participants.entry(chunk.ssrc()).or_default();
        }
        let ssrcs: Vec<u32> = self.participants.keys().copied().collect();
        let mut answers = vec![LookupAnswer::NONE; ssrcs.len()];
        sdes.lookup(&ssrcs, &mut answers)?;
        let cnames: Vec<Option<SdesItem>> = sdes.chunks().map(|chunk| chunk.cname()).collect();
        for (name, answer) in self.participants.values_mut().zip(answers) {
            if let Some(chunk) = answer.chunk() {
                *name = cnames[usize::from(chunk)].map(|cname| cname.value().to_vec());
            }
        }
        Ok(())
    }

    /// The middle 32 bits of the NTP time of the source's last report, and the
    /// 65,536ths of a second since it came; 0 and 0 where none came.
    fn last_report(&self, ssrc: u32) -> (u32, u32) {
        let Some((middle, arrival)) = self.senders.get(&ssrc) else {
            return (0, 0);
        };
        let ticks = u64::from(self.now.wrapping_sub(*arrival));
        (*middle, (ticks * 65536 / CLOCK_RATE) as u32)
    }

    /// A block for each source that is out of probation, for the first 31 of them.
    fn blocks(&mut self) -> Vec<ReportBlock> {
        let mut receptions = std::mem::take(&mut self.receptions);
        let block = |(ssrc, reception): (&u32, &mut Reception)| {
            let (middle, delay) = self.last_report(*ssrc);
            reception.report_block(*ssrc, middle, delay)
        };
        let blocks = receptions.iter_mut().filter_map(block).take(MOST).collect();
        self.receptions = receptions;
        blocks
    }

    /// An RR about what came, and an SDES packet with our own CNAME.
    fn report(&mut self, buf: &mut [u8]) -> Result<usize, RtcpWriteError> {
        const OWN: u32 = 0x0B0C0D0E;
        let mut rr = ReceiverReport::builder(OWN);
        for block in self.blocks() {
            rr = rr.add_report_block(block);
        }
        let name = SdesItem::builder(SdesItem::CNAME, "bridge@hall");
        Compound::builder()
            .add_packet(rr)
            .add_packet(Sdes::builder().add_chunk(SdesChunk::builder(OWN).add_item(name)))
            .write_into(buf)
    }

    fn print_report(&mut self) -> Result<(), Box<dyn Error>> {
        let mut buf = [0; 1500];
        let len = self.report(&mut buf)?;
        let hex: String = buf[..len]
            .iter()
            .map(|byte| format!("{byte:02x}"))
            .collect();
        println!("reply: {hex}");
        Ok(())
    }

    fn print_losses(&self) {
        for (ssrc, block) in &self.meter {
            let (fraction, lost) = (block.fraction_lost(), block.cumulative_lost());
            println!("loss of {ssrc:08x}: {fraction}/256, {lost} in all");
        }
    }

    /// Those whose name is known.
    fn print_participants(&self) {
        for (ssrc, cname) in &self.participants {
            let Some(cname) = cname else {
                continue;
            };
            let shown = |byte: &u8| match byte {
                0x20..=0x7E => *byte as char,
                _ => '?',
            };
            let cname: String = cname.iter().map(shown).collect();
            println!("participant {ssrc:08x}: {cname}");
        }
    }
}

fn bytes(hex: &str) -> Result<Vec<u8>, Box<dyn Error>> {
    let digits: Option<Vec<u8>> = hex.chars().map(|c| Some(c.to_digit(16)? as u8)).collect();
    let digits = digits.ok_or("a datagram is given as hex digits")?;
    if digits.len() % 2 != 0 {
        return Err("a byte has two hex digits".into());
    }
    Ok(digits
        .chunks(2)
        .map(|pair| 16 * pair[0] + pair[1])
        .collect())
}

fn run(given: Option<&str>) -> Result<(), Box<dyn Error>> {
    let mut monitor = Monitor::default();
    match given {
        None => SAMPLE
            .lines()
            .try_for_each(|line| monitor.take_line(line))?,
        Some("-") => std::io::stdin()
            .lines()
            .try_for_each(|line| monitor.take_line(&line?))?,
        Some(hex) => monitor.take_datagram(hex)?,
    }
    monitor.print_losses();
    monitor.print_participants();
    monitor.print_report()
}

fn main() -> ExitCode {
    match run(std::env::args().nth(1).as_deref()) {
        Ok(()) => ExitCode::SUCCESS,
        Err(error) => {
            eprintln!("{error}");
            ExitCode::FAILURE
        }
    }
}
