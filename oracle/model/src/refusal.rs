//! A refusal is a number and two 64-bit details, 0 where none is named.

use std::fmt;

#[derive(Clone, Copy, Debug, PartialEq, Eq, Hash, PartialOrd, Ord)]
pub struct Refusal {
    pub number: u8,
    pub first: u64,
    pub second: u64,
}

pub type Answer<T> = Result<T, Refusal>;

impl Refusal {
    pub const fn new(number: u8, first: u64, second: u64) -> Self {
        Refusal {
            number,
            first,
            second,
        }
    }

    pub const fn bare(number: u8) -> Self {
        Refusal::new(number, 0, 0)
    }

    pub fn unsupported_version(version: u8) -> Self {
        Refusal::new(1, version.into(), 0)
    }

    pub fn truncated(expected: usize, actual: usize) -> Self {
        Refusal::new(2, expected as u64, actual as u64)
    }

    pub fn too_large(expected: usize, actual: usize) -> Self {
        Refusal::new(3, expected as u64, actual as u64)
    }

    pub const INVALID_PADDING_READ: Refusal = Refusal::bare(4);

    pub fn prefix_past_item(len: usize, available: usize) -> Self {
        Refusal::new(5, len as u64, available as u64)
    }

    pub fn type_mismatch(actual: u8, requested: u8) -> Self {
        Refusal::new(6, actual.into(), requested.into())
    }

    pub fn first_is_no_report(packet_type: u8) -> Self {
        Refusal::new(7, packet_type.into(), 0)
    }

    pub const NO_CNAME_READ: Refusal = Refusal::bare(8);
    pub const NON_LAST_PADDED: Refusal = Refusal::bare(9);

    pub fn output_too_small(size: u64) -> Self {
        Refusal::new(10, size, 0)
    }

    pub fn invalid_padding(padding: u64) -> Self {
        Refusal::new(11, padding, 0)
    }

    pub fn subtype_out_of_range(subtype: u64) -> Self {
        Refusal::new(12, subtype, 31)
    }

    pub const INVALID_NAME: Refusal = Refusal::bare(13);

    pub fn data_no_words(len: usize) -> Self {
        Refusal::new(14, len as u64, 0)
    }

    pub fn too_many_sources(count: usize) -> Self {
        Refusal::new(15, count as u64, 31)
    }

    pub fn reason_too_large(len: usize) -> Self {
        Refusal::new(16, len as u64, 255)
    }

    /// The first detail is the value's low 32 bits.
    pub fn loss_too_large(value: i32) -> Self {
        Refusal::new(17, (value as u32).into(), 8_388_607)
    }

    pub fn too_many_blocks(count: usize) -> Self {
        Refusal::new(18, count as u64, 31)
    }

    pub fn too_many_chunks(count: usize) -> Self {
        Refusal::new(19, count as u64, 31)
    }

    pub fn value_too_large(len: usize, max: usize) -> Self {
        Refusal::new(20, len as u64, max as u64)
    }

    pub fn prefix_too_large(len: usize) -> Self {
        Refusal::new(21, len as u64, 254)
    }

    pub const OVERSIZED: Refusal = Refusal::bare(22);
    pub const ITEM_TYPE_ZERO: Refusal = Refusal::bare(23);
    pub const LISTS_DISAGREE: Refusal = Refusal::bare(24);
    pub const NOTHING_LEFT: Refusal = Refusal::bare(25);
    pub const CLOSED: Refusal = Refusal::bare(26);
    pub const WRITER_NEEDS_REPORT: Refusal = Refusal::bare(27);
    pub const WRITER_NEEDS_CNAME: Refusal = Refusal::bare(28);
    pub const ALREADY_PADDED: Refusal = Refusal::bare(29);

    pub fn not_priv(item_type: u8) -> Self {
        Refusal::new(30, item_type.into(), 0)
    }

    /// A lent list is longer than the buffer for its answers.
    pub const LIST_TOO_LONG: Refusal = Refusal::bare(31);
}

impl fmt::Display for Refusal {
    fn fmt(&self, f: &mut fmt::Formatter) -> fmt::Result {
        write!(f, "{}({},{})", self.number, self.first, self.second)
    }
}
