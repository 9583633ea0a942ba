//! A case, and what is asked of it.

use compare::generate::{sources, LOSSES, LOSSES_OUTSIDE, STALE};
use compare::limits::{lists, look_ups};
use compare::operation::Operation;
use model::*;

#[derive(Clone)]
pub struct Case {
    pub bytes: Vec<u8>,
    pub at: u64,
    pub end: u64,
}

impl Case {
    pub fn of(bytes: &[u8], at: u64, end: u64) -> Case {
        Case {
            bytes: bytes.to_vec(),
            at,
            end,
        }
    }

    /// Every reading, every list around its right length, lookups, a write, a call, and
    /// reception figures.
    pub fn operations(&self) -> Vec<Operation> {
        let bytes = || self.bytes.clone();
        let walk = SdesWalk {
            position: self.at,
            end: self.end,
        };
        let mut operations = vec![
            Operation::ReadBlock(bytes()),
            Operation::ReadItem(bytes()),
            Operation::ReadPrefix(bytes()),
            Operation::ReadChunk(bytes()),
            Operation::ReadBlockAt(Kind::Sr, bytes(), self.at),
            Operation::ReadBlockAt(Kind::Rr, bytes(), self.at),
            Operation::ReadSourceAt(bytes(), self.at),
            Operation::ReadCompound(bytes()),
            Operation::Open(bytes()),
            Operation::Step(bytes(), self.at),
            Operation::OpenSdes(bytes()),
            Operation::SdesStep(bytes(), walk),
            Operation::OpenItems(bytes()),
            Operation::ItemStep(bytes(), self.at),
        ];
        operations.extend(Kind::ALL.map(|kind| Operation::ReadAs(kind, bytes())));
        for listing in Listing::ALL {
            lists(listing, &self.bytes, &mut |list| operations.push(list));
        }
        for ssrcs in [Vec::new(), self.sought()] {
            look_ups(&self.bytes, &ssrcs, &mut |lookup| operations.push(lookup));
        }
        operations.push(Draw(&self.bytes).write());
        operations.push(Draw(&self.bytes).call());
        operations.push(Draw(&self.bytes).receive());
        operations.push(Draw(&self.bytes).history());
        operations
    }

    /// The SSRCs of the packet's chunks, one that differs from the first in one bit,
    /// and the case's numbers, which are often 0.
    fn sought(&self) -> Vec<u32> {
        let mut ssrcs = sources(&self.bytes);
        let near = ssrcs.first().map(|ssrc| ssrc ^ 1 << (self.end % 32));
        ssrcs.extend(near);
        ssrcs.extend([self.at, self.end].map(|number| number as u32));
        ssrcs
    }
}

/// Draws arguments from bytes; where these are used up, zeros.
struct Draw<'a>(&'a [u8]);

impl Draw<'_> {
    fn byte(&mut self) -> u8 {
        match self.0.split_first() {
            Some((first, rest)) => {
                self.0 = rest;
                *first
            }
            None => 0,
        }
    }

    fn word(&mut self) -> u32 {
        (0..4).fold(0, |word, _| word << 8 | u32::from(self.byte()))
    }

    fn long(&mut self) -> u64 {
        u64::from(self.word()) << 32 | u64::from(self.word())
    }

    /// At most 65,536 ways.
    fn below(&mut self, limit: usize) -> usize {
        usize::from(u16::from_be_bytes([self.byte(), self.byte()])) % limit
    }

    fn many<T>(&mut self, limit: usize, draw: impl Fn(&mut Self) -> T) -> Vec<T> {
        let count = self.below(limit);
        (0..count).map(|_| draw(self)).collect()
    }

    fn run(&mut self, limit: usize) -> Vec<u8> {
        self.many(limit, Self::byte)
    }

    fn padding(&mut self) -> u64 {
        match self.byte() % 8 {
            0..=3 => 0,
            4 | 5 => 4 * (u64::from(self.byte()) % 65),
            6 => self.byte().into(),
            _ => self.long(),
        }
    }

    /// Mostly of 24 bits, at times an edge, a power of two, its negative or any.
    fn loss(&mut self) -> i32 {
        match self.byte() % 32 {
            0 | 1 => LOSSES[self.below(LOSSES.len())],
            2 => LOSSES_OUTSIDE[self.below(LOSSES_OUTSIDE.len())],
            3 => 1 << (self.byte() % 31),
            4 => -1 << (self.byte() % 32),
            5 => self.word() as i32,
            // The 24th bit is the sign.
            _ => (self.word() as i32) << 8 >> 8,
        }
    }

    fn block(&mut self) -> Block {
        Block {
            ssrc: self.word(),
            fraction_lost: self.byte(),
            cumulative_lost: self.loss(),
            extended_sequence: self.word(),
            jitter: self.word(),
            last_sr: self.word(),
            delay: self.word(),
        }
    }

    /// Lists that mostly agree.
    fn blocks(&mut self) -> BlockLists {
        let mut blocks = BlockLists::of(&self.many(34, Self::block));
        match self.byte() % 16 {
            1 => blocks.fractions = self.run(34),
            2 => blocks.losses = self.many(34, Self::loss),
            3 => blocks.words = self.many(170, Self::word),
            _ => {}
        }
        blocks
    }

    /// Rarely 0, often PRIV.
    fn item_type(&mut self) -> u8 {
        match self.byte() {
            255 => 0,
            byte if byte % 3 == 0 => PRIV,
            byte => byte,
        }
    }

    /// Lengths mostly agree with the bytes.
    fn items(&mut self) -> ItemLists {
        let count = self.below(6);
        let mut items = ItemLists::default();
        for _ in 0..count {
            let lengths = [self.below(300), self.below(300)];
            let lengths = lengths.map(|length| if length % 3 == 0 { length } else { length % 8 });
            items.types.push(self.item_type());
            items.prefix_lengths.push(lengths[0] as u64);
            items.value_lengths.push(lengths[1] as u64);
            for _ in 0..lengths[0] + lengths[1] {
                let byte = self.byte();
                items.bytes.push(byte);
            }
        }
        match self.byte() % 24 {
            1 => drop(items.types.pop()),
            2 => items.prefix_lengths.push(0),
            3 => drop(items.value_lengths.pop()),
            4 => items.bytes.push(0),
            5 => items
                .value_lengths
                .iter_mut()
                .for_each(|length| *length = u64::MAX),
            _ => {}
        }
        items
    }

    fn sdes(&mut self) -> SdesLists {
        let items = self.items();
        let mut left = items.types.len() as u64;
        let mut lists = SdesLists {
            ssrcs: self.many(34, Self::word),
            ..SdesLists::default()
        };
        for _ in &lists.ssrcs {
            let count = left.min(self.byte().into());
            lists.counts.push(count);
            left -= count;
        }
        if let Some(last) = lists.counts.last_mut() {
            *last += left;
        }
        match self.byte() % 24 {
            1 => lists.counts.push(0),
            2 => drop(lists.ssrcs.pop()),
            3 => lists.counts.iter_mut().for_each(|count| *count = u64::MAX),
            _ => {}
        }
        lists.items = items;
        lists
    }

    /// A buffer around the size wanted.
    fn buffer(&mut self, size: Answer<u64>) -> Vec<u8> {
        let size = size.map_or(8, |size| size as usize);
        let length = match self.byte() % 8 {
            4 => 0,
            5 => size.saturating_sub(1),
            6 => self.below(size + 1),
            7 => size + 7,
            _ => size,
        };
        vec![STALE; length]
    }

    fn write(&mut self) -> Operation {
        let kind = match self.byte() % 7 {
            5 => {
                let lists = ChunkLists {
                    ssrc: self.word(),
                    items: self.items(),
                };
                let buffer = self.buffer(size_of_chunk(&lists));
                return Operation::WriteChunk(lists, buffer);
            }
            6 => {
                let item = Item {
                    item_type: self.item_type(),
                    prefix: self.run(300),
                    value: self.run(300),
                };
                let buffer = self.buffer(size_of_item(&item));
                return Operation::WriteItem(item, buffer);
            }
            kind => Kind::ALL[usize::from(kind)],
        };
        let given = self.given(kind);
        let buffer = self.buffer(size(&given));
        Operation::Write(given, buffer)
    }

    /// A call of the compound writer, from any state.
    fn call(&mut self) -> Operation {
        let byte = self.byte();
        let writer = Writer {
            length: match byte % 8 {
                0 => 0,
                1 => self.long(),
                _ => 4 * self.below(20) as u64,
            },
            closed: byte & 0xE0 == 0x20,
            padded: byte & 0xE0 == 0x40,
            cname: byte & 0x08 != 0,
        };
        let Some(kind) = Kind::ALL.get(usize::from(self.byte()) % 6) else {
            return Operation::Close(writer);
        };
        let given = self.given(*kind);
        let wanted = size(&given).map(|size| size + writer.length.min(1000));
        let buffer = self.buffer(wanted);
        Operation::Add(writer, given, buffer)
    }

    /// Often 0, or where something ends.
    fn count(&mut self) -> u32 {
        match self.byte() % 8 {
            0..=2 => 0,
            3 => 1 << (self.byte() % 32),
            4 => 0u32.wrapping_sub(1 << (self.byte() % 32)),
            5 => self.byte().into(),
            _ => self.word(),
        }
    }

    /// A packet or a block, from any state.
    fn receive(&mut self) -> Operation {
        let state = Reception {
            max_seq: self.word() as u16,
            cycles: self.count(),
            base_seq: self.count(),
            bad_seq: self.count(),
            probation: match self.byte() % 4 {
                0 => self.count(),
                _ => 0,
            },
            received: self.count(),
            expected_prior: self.count(),
            received_prior: self.count(),
            transit: self.count(),
            jitter: self.count(),
        };
        Operation::Receive(state, self.event(&state))
    }

    /// Up to nine events.
    fn history(&mut self) -> Operation {
        let first = self.word() as u16;
        let mut state = Reception::new(first);
        let mut events = Vec::new();
        for _ in 0..self.below(10) {
            let event = self.event(&state);
            state.take(event);
            events.push(event);
        }
        Operation::History(first, events)
    }

    /// A block, or a packet whose number is mostly near to the last.
    fn event(&mut self, state: &Reception) -> Event {
        let kind = self.byte() % 8;
        if kind == 7 {
            return Event::Block {
                ssrc: self.word(),
                last_sr: self.word(),
                delay: self.word(),
            };
        }
        let ahead = match kind {
            1 => self.word() as u16,
            2 => 2996 + self.below(8) as u16,
            3 => 65_432 + self.below(8) as u16,
            4 => (state.bad_seq as u16).wrapping_sub(state.max_seq),
            5 => 0,
            _ => 1,
        };
        Event::Packet {
            seq: state.max_seq.wrapping_add(ahead),
            timestamp: self.count(),
            arrival: self.count(),
        }
    }

    fn given(&mut self, kind: Kind) -> Given {
        let padding = self.padding();
        match kind {
            Kind::Sr | Kind::Rr => Given::Report {
                ssrc: self.word(),
                sender: (kind == Kind::Sr).then(|| SenderInfo {
                    ntp_time: self.long(),
                    rtp_time: self.word(),
                    packet_count: self.word(),
                    octet_count: self.word(),
                }),
                blocks: self.blocks(),
                padding,
            },
            Kind::Sdes => Given::Sdes {
                lists: self.sdes(),
                padding,
            },
            Kind::Bye => Given::Bye {
                sources: self.many(34, Self::word),
                reason: self.run(260),
                padding,
            },
            Kind::App => Given::App {
                subtype: match self.byte() % 8 {
                    7 => self.long(),
                    _ => u64::from(self.byte()) % 34,
                },
                ssrc: self.word(),
                name: self.run(6),
                data: match self.byte() % 4 {
                    3 => self.run(300),
                    _ => vec![0xD7; 4 * self.below(40)],
                },
                padding,
            },
        }
    }
}
