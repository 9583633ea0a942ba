//! What the datagrams say of each source.

use crate::datagram::Datagram;
use crate::series::{Point, Series};
use crate::time::Time;
use bokyjave::{Packet, ReportBlock, Sdes};
use std::collections::{BTreeMap, VecDeque};

/// As many sources, and as many pairs of a source and a reporter, are kept.
const MOST: usize = 2048;
/// As many sender reports of a source are kept to find the one that is answered.
const MOST_SENT: usize = 16;

#[derive(Default)]
pub struct Sources {
    pub by_ssrc: BTreeMap<u32, Source>,
    pairs: usize,
    /// Whether there are more than are kept.
    pub is_cut: bool,
    /// The first time, from which the points are counted.
    start: Option<Time>,
}

#[derive(Default)]
pub struct Source {
    pub cname: Option<Vec<u8>>,
    /// Where its last report came from.
    pub address: Option<String>,
    pub sender_reports: u64,
    pub receiver_reports: u64,
    pub byes: u64,
    /// The middle of the NTP timestamps of its last reports, and when they were captured.
    sent: VecDeque<(u32, Time)>,
    /// Who reports about it.
    pub reporters: BTreeMap<u32, Reported>,
}

/// What one reporter says of a source.
#[derive(Default)]
pub struct Reported {
    pub blocks: u64,
    pub fraction: u8,
    pub lost: i32,
    pub jitter: u32,
    /// Seconds.
    pub round_trip: Option<f64>,
    pub series: Series,
}

impl Sources {
    /// Takes a packet of a datagram that was read.
    pub fn packet(&mut self, datagram: &Datagram, packet: &Packet) {
        self.start = self.start.or(datagram.from.time);
        match packet {
            Packet::Sr(sr) => {
                if let Some(source) = self.sender(datagram, sr.ssrc()) {
                    source.sender_reports += 1;
                    source.sent_at((sr.ntp_timestamp() >> 16) as u32, datagram.from.time);
                }
                self.blocks(datagram, sr.ssrc(), sr.report_blocks());
            }
            Packet::Rr(rr) => {
                if let Some(source) = self.sender(datagram, rr.ssrc()) {
                    source.receiver_reports += 1;
                }
                self.blocks(datagram, rr.ssrc(), rr.report_blocks());
            }
            Packet::Sdes(sdes) => self.names(sdes),
            Packet::Bye(bye) => {
                for ssrc in bye.ssrcs() {
                    if let Some(source) = self.source(ssrc) {
                        source.byes += 1;
                    }
                }
            }
            Packet::App(_) | Packet::Unknown(_) => (),
        }
    }

    /// A source, unless there are too many.
    fn source(&mut self, ssrc: u32) -> Option<&mut Source> {
        if self.by_ssrc.len() == MOST && !self.by_ssrc.contains_key(&ssrc) {
            self.is_cut = true;
            return None;
        }
        Some(self.by_ssrc.entry(ssrc).or_default())
    }

    fn sender(&mut self, datagram: &Datagram, ssrc: u32) -> Option<&mut Source> {
        let source = self.source(ssrc)?;
        source.address = Some(datagram.from.sender());
        Some(source)
    }

    fn names(&mut self, sdes: &Sdes) {
        for chunk in sdes.chunks() {
            let Some(source) = self.source(chunk.ssrc()) else {
                return;
            };
            if let Some(cname) = chunk.cname() {
                source.cname = Some(cname.value().to_vec());
            }
        }
    }

    fn blocks(
        &mut self,
        datagram: &Datagram,
        reporter: u32,
        blocks: impl Iterator<Item = ReportBlock>,
    ) {
        let time = datagram.from.time;
        let seconds = time.zip(self.start).map(|(time, start)| time.since(start));
        for block in blocks {
            let point = Point {
                number: datagram.number,
                seconds,
                fraction: block.fraction_lost(),
                lost: block.cumulative_lost(),
                jitter: block.interarrival_jitter(),
            };
            let has_room = self.pairs < MOST;
            let Some(source) = self.source(block.ssrc()) else {
                continue;
            };
            let is_new = !source.reporters.contains_key(&reporter);
            if is_new && !has_room {
                self.is_cut = true;
                continue;
            }
            let round_trip = source.round_trip(&block, time);
            source.reported(reporter, point, round_trip);
            self.pairs += usize::from(is_new);
        }
    }
}

impl Source {
    fn sent_at(&mut self, middle: u32, time: Option<Time>) {
        let Some(time) = time else {
            return;
        };
        if self.sent.len() == MOST_SENT {
            self.sent.pop_front();
        }
        self.sent.push_back((middle, time));
    }

    /// The time from the capture of this source's report to the capture of a
    /// block that answers it, without the delay at the reporter.
    fn round_trip(&self, block: &ReportBlock, time: Option<Time>) -> Option<f64> {
        let last = block.last_sender_report_timestamp();
        let is_answered = |sent: &&(u32, Time)| last != 0 && sent.0 == last;
        let (_, sent) = self.sent.iter().rfind(is_answered)?;
        let delay = f64::from(block.delay_since_last_sender_report_timestamp()) / 65_536.0;
        Some(time?.since(*sent) - delay)
    }

    fn reported(&mut self, reporter: u32, point: Point, round_trip: Option<f64>) {
        let reported = self.reporters.entry(reporter).or_default();
        reported.blocks += 1;
        reported.fraction = point.fraction;
        reported.lost = point.lost;
        reported.jitter = point.jitter;
        reported.round_trip = round_trip.or(reported.round_trip);
        reported.series.add(point);
    }
}
