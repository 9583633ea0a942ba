//! Puts the fragments of IP packets together.

use crate::ip::{Fragment, Whole};
use std::collections::VecDeque;

/// As many datagrams wait for their other parts; the oldest gives way.
const MOST_WAITING: usize = 64;
/// More than a datagram has.
const MOST_BYTES: usize = 65_535;

#[derive(Default)]
pub struct Fragments {
    waiting: VecDeque<Waiting>,
    /// All that came.
    pub all: u64,
    /// Those that were put together, and the datagrams that they gave.
    pub used: u64,
    pub datagrams: u64,
}

struct Waiting {
    of: Whole,
    /// Offsets and bytes, in order of the offsets.
    parts: Vec<(usize, Vec<u8>)>,
    len: Option<usize>,
}

impl Fragments {
    /// Takes a fragment, and gives the datagram that it completes.
    pub fn add(&mut self, fragment: &Fragment) -> Option<Vec<u8>> {
        self.all += 1;
        let place = self.waiting.iter().position(|it| it.of == fragment.of);
        let place = place.unwrap_or_else(|| self.wait_for(fragment.of));
        self.waiting[place].add(fragment);
        let datagram = self.waiting[place].whole()?;
        self.used += self.waiting[place].parts.len() as u64;
        self.datagrams += 1;
        self.waiting.remove(place);
        Some(datagram)
    }

    /// A place for a datagram of which no part came yet.
    fn wait_for(&mut self, of: Whole) -> usize {
        if self.waiting.len() == MOST_WAITING {
            self.waiting.pop_front();
        }
        self.waiting.push_back(Waiting {
            of,
            parts: Vec::new(),
            len: None,
        });
        self.waiting.len() - 1
    }
}

impl Waiting {
    fn add(&mut self, fragment: &Fragment) {
        let end = fragment.offset + fragment.data.len();
        if end > MOST_BYTES {
            return;
        }
        if fragment.is_last {
            self.len = Some(end);
        }
        let places = self
            .parts
            .binary_search_by_key(&fragment.offset, |part| part.0);
        if let Err(place) = places {
            let part = (fragment.offset, fragment.data.to_vec());
            self.parts.insert(place, part);
        }
    }

    /// The datagram, where each part starts where the one before ends.
    fn whole(&self) -> Option<Vec<u8>> {
        let len = self.len?;
        let mut datagram = Vec::new();
        for (offset, data) in &self.parts {
            if *offset != datagram.len() {
                return None;
            }
            datagram.extend(data);
        }
        (datagram.len() == len).then_some(datagram)
    }
}
