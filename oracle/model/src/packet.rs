//! Packets as they are compared: the kind, every field and the padding.

pub const CNAME: u8 = 1;
pub const PRIV: u8 = 8;

/// The range of cumulative lost.
pub const LOSS_LEAST: i32 = -8_388_608;
pub const LOSS_MOST: i32 = 8_388_607;

/// The five kinds that are read and written here.
#[derive(Clone, Copy, Debug, PartialEq, Eq, Hash, PartialOrd, Ord)]
pub enum Kind {
    Sr,
    Rr,
    Sdes,
    Bye,
    App,
}

impl Kind {
    pub const ALL: [Kind; 5] = [Kind::Sr, Kind::Rr, Kind::Sdes, Kind::Bye, Kind::App];

    pub fn least(self) -> usize {
        match self {
            Kind::Sr => 28,
            Kind::Rr => 8,
            Kind::Sdes => 4,
            Kind::Bye => 4,
            Kind::App => 12,
        }
    }

    pub fn packet_type(self) -> u8 {
        match self {
            Kind::Sr => 200,
            Kind::Rr => 201,
            Kind::Sdes => 202,
            Kind::Bye => 203,
            Kind::App => 204,
        }
    }

    pub fn of_type(packet_type: u8) -> Option<Kind> {
        Kind::ALL
            .into_iter()
            .find(|kind| kind.packet_type() == packet_type)
    }

    pub fn is_report(self) -> bool {
        matches!(self, Kind::Sr | Kind::Rr)
    }
}

#[derive(Clone, Copy, Debug, Default, PartialEq, Eq, Hash)]
pub struct Block {
    pub ssrc: u32,
    pub fraction_lost: u8,
    pub cumulative_lost: i32,
    pub extended_sequence: u32,
    pub jitter: u32,
    pub last_sr: u32,
    pub delay: u32,
}

impl Block {
    /// Its seven numbers, in the order of the wire.
    pub fn numbers(&self) -> [i64; 7] {
        [
            self.ssrc.into(),
            self.fraction_lost.into(),
            self.cumulative_lost.into(),
            self.extended_sequence.into(),
            self.jitter.into(),
            self.last_sr.into(),
            self.delay.into(),
        ]
    }

    /// What is not its fraction and its loss, in the order of the wire.
    pub fn words(&self) -> [u32; 5] {
        [
            self.ssrc,
            self.extended_sequence,
            self.jitter,
            self.last_sr,
            self.delay,
        ]
    }
}

/// What an SR has and an RR has not.
#[derive(Clone, Copy, Debug, Default, PartialEq, Eq, Hash)]
pub struct SenderInfo {
    pub ntp_time: u64,
    pub rtp_time: u32,
    pub packet_count: u32,
    pub octet_count: u32,
}

/// The prefix is empty on every type but PRIV.
#[derive(Clone, Debug, Default, PartialEq, Eq, Hash)]
pub struct Item {
    pub item_type: u8,
    pub prefix: Vec<u8>,
    pub value: Vec<u8>,
}

#[derive(Clone, Debug, Default, PartialEq, Eq, Hash)]
pub struct Chunk {
    pub ssrc: u32,
    pub items: Vec<Item>,
}

impl Chunk {
    pub fn has_cname(&self) -> bool {
        self.items.iter().any(|item| item.item_type == CNAME)
    }
}

#[derive(Clone, Debug, PartialEq, Eq, Hash)]
pub enum Content {
    /// An SR with sender information, else an RR.
    Report {
        ssrc: u32,
        sender: Option<SenderInfo>,
        blocks: Vec<Block>,
        extension: Vec<u8>,
    },
    Sdes {
        chunks: Vec<Chunk>,
    },
    Bye {
        sources: Vec<u32>,
        reason: Option<Vec<u8>>,
        tail: Vec<u8>,
    },
    App {
        subtype: u8,
        ssrc: u32,
        name: [u8; 4],
        data: Vec<u8>,
    },
    Unknown {
        packet_type: u8,
        low: u8,
        body: Vec<u8>,
    },
}

#[derive(Clone, Debug, PartialEq, Eq, Hash)]
pub struct Packet {
    pub content: Content,
    pub padding: Vec<u8>,
}

impl Packet {
    pub fn packet_type(&self) -> u8 {
        match &self.content {
            Content::Report {
                sender: Some(_), ..
            } => 200,
            Content::Report { sender: None, .. } => 201,
            Content::Sdes { .. } => 202,
            Content::Bye { .. } => 203,
            Content::App { .. } => 204,
            Content::Unknown { packet_type, .. } => *packet_type,
        }
    }

    /// The low five bits of the first byte.
    pub fn low_bits(&self) -> usize {
        match &self.content {
            Content::Report { blocks, .. } => blocks.len(),
            Content::Sdes { chunks } => chunks.len(),
            Content::Bye { sources, .. } => sources.len(),
            Content::App { subtype, .. } => usize::from(*subtype),
            Content::Unknown { low, .. } => usize::from(*low),
        }
    }

    pub fn has_cname(&self) -> bool {
        match &self.content {
            Content::Sdes { chunks } => chunks.iter().any(Chunk::has_cname),
            _ => false,
        }
    }
}
