//! What the readers of capture files give.

use crate::link::Link;
use crate::time::Time;
use std::{fmt, io};

/// More than any program captures of one frame.
pub const MOST: usize = 262_144;

/// A captured frame.
pub struct Record<'a> {
    /// The offset of the record in its file.
    pub at: u64,
    /// None where the format has no time for it.
    pub time: Option<Time>,
    /// The link layer, or the number of one that is not read.
    pub link: Result<Link, u32>,
    pub frame: &'a [u8],
    /// Whether the snap length has cut bytes off.
    pub is_cut: bool,
}

/// Bytes of a file that are no record, and why.
pub struct Damage {
    pub at: u64,
    pub text: String,
}

impl Damage {
    pub fn at(at: u64, text: impl Into<String>) -> Self {
        let text = text.into();
        Damage { at, text }
    }
}

impl fmt::Display for Damage {
    fn fmt(&self, f: &mut fmt::Formatter<'_>) -> fmt::Result {
        write!(f, "offset {}: {}", self.at, self.text)
    }
}

/// What comes next in a file.
pub enum Next<'a> {
    Record(Record<'a>),
    Damage(Damage),
    End,
}

/// The records of a file, in their order.
pub trait Records {
    fn next(&mut self) -> io::Result<Next<'_>>;
}
