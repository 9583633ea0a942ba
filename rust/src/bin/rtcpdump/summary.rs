//! What was read, in numbers.

use crate::datagram::Datagram;
use crate::fault::Fault;
use crate::fields::{short_name, OTHER};
use crate::fragments::Fragments;
use crate::ip::Passed;
use crate::rules::Rule;
use crate::sources::Sources;
use bokyjave::Packet;
use std::collections::BTreeMap;

#[derive(Default)]
pub struct Summary {
    pub datagrams: u64,
    pub refused: u64,
    /// By the names in [`KINDS`].
    packets: BTreeMap<&'static str, u64>,
    pub refusals: BTreeMap<(u64, &'static str), Refused>,
    pub bad_lines: u64,
    /// Places where a file is damaged, and files that cannot be read.
    pub damages: u64,
    pub records: Records,
    pub sources: Sources,
}

/// The datagrams that have the same fault.
pub struct Refused {
    pub rule: &'static Rule,
    pub count: u64,
    pub by_sender: BTreeMap<String, u64>,
}

/// As many senders of the same fault are kept.
const MOST_SENDERS: usize = 256;
/// The name for the others.
const OTHERS: &str = "others";

/// The records of capture files.
#[derive(Default)]
pub struct Records {
    pub all: u64,
    taken: u64,
    /// UDP datagrams that are not RTCP, or of another port.
    others: u64,
    not_udp: u64,
    cut: u64,
    damaged: u64,
    pub of_other_link: u64,
    pub fragments: Fragments,
}

pub const KINDS: [&str; 6] = ["SR", "RR", "SDES", "BYE", "APP", OTHER];

impl Summary {
    /// Takes a packet of a datagram that was read.
    pub fn packet(&mut self, datagram: &Datagram, packet: &Packet) {
        *self.packets.entry(short_name(packet)).or_default() += 1;
        self.sources.packet(datagram, packet);
    }

    pub fn refusal(&mut self, datagram: &Datagram, fault: &Fault) {
        self.refused += 1;
        let key = (fault.error.number(), fault.text);
        let refused = self.refusals.entry(key).or_insert_with(|| Refused {
            rule: fault.rule,
            count: 0,
            by_sender: BTreeMap::new(),
        });
        refused.count += 1;
        let sender = datagram.from.sender();
        let is_full = refused.by_sender.len() >= MOST_SENDERS;
        let sender = match is_full && !refused.by_sender.contains_key(&sender) {
            true => OTHERS.into(),
            false => sender,
        };
        *refused.by_sender.entry(sender).or_default() += 1;
    }

    /// How many packets of a kind were read.
    pub fn packets(&self, kind: &str) -> u64 {
        self.packets.get(kind).copied().unwrap_or(0)
    }

    /// How many datagrams a number refuses.
    pub fn by_number(&self) -> BTreeMap<u64, u64> {
        let mut counts = BTreeMap::new();
        for ((number, _), refused) in &self.refusals {
            *counts.entry(*number).or_default() += refused.count;
        }
        counts
    }

    /// Whether all was read.
    pub fn is_whole(&self) -> bool {
        self.damages == 0 && self.bad_lines == 0 && self.records.of_other_link == 0
    }
}

impl Records {
    pub fn udp(&mut self, is_taken: bool) {
        match is_taken {
            true => self.taken += 1,
            false => self.others += 1,
        }
    }

    pub fn passed(&mut self, passed: Passed, is_cut: bool) {
        match passed {
            Passed::NotUdp => self.not_udp += 1,
            Passed::Short if is_cut => self.cut += 1,
            Passed::Short | Passed::Damaged => self.damaged += 1,
        }
    }

    /// Names and numbers, to print.
    pub fn counts(&self) -> [(&'static str, u64); 10] {
        [
            ("records", self.all),
            ("taken as RTCP", self.taken),
            ("other UDP datagrams", self.others),
            ("not UDP", self.not_udp),
            ("fragments", self.fragments.all),
            ("fragments put together", self.fragments.used),
            ("datagrams of them", self.fragments.datagrams),
            ("cut short by the snap length", self.cut),
            ("with a damaged header", self.damaged),
            ("of a link type that is not read", self.of_other_link),
        ]
    }
}
