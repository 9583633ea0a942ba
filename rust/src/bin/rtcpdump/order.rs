//! Numbers in capture files.

/// How the machine that wrote a file orders the bytes of a number.
#[derive(Clone, Copy, Debug, PartialEq, Eq)]
pub enum Order {
    Big,
    Little,
}

impl Order {
    /// Two bytes at a place, which are there.
    pub fn u16_at(self, data: &[u8], at: usize) -> u16 {
        let bytes = [data[at], data[at + 1]];
        match self {
            Order::Big => u16::from_be_bytes(bytes),
            Order::Little => u16::from_le_bytes(bytes),
        }
    }

    /// Four bytes at a place, which are there.
    pub fn u32_at(self, data: &[u8], at: usize) -> u32 {
        let bytes = [data[at], data[at + 1], data[at + 2], data[at + 3]];
        match self {
            Order::Big => u32::from_be_bytes(bytes),
            Order::Little => u32::from_le_bytes(bytes),
        }
    }

    /// Eight bytes at a place, which are there: two numbers of four.
    pub fn u64_at(self, data: &[u8], at: usize) -> u64 {
        let (first, second) = (
            self.u32_at(data, at).into(),
            self.u32_at(data, at + 4).into(),
        );
        let (high, low): (u64, u64) = match self {
            Order::Big => (first, second),
            Order::Little => (second, first),
        };
        high << 32 | low
    }
}
