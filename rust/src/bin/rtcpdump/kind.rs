//! What kind of file it is, by its first bytes.

use crate::pcap::is_pcap;
use crate::pcapng::is_pcapng;

pub enum Kind {
    Pcap,
    Pcapng,
    Text,
    /// Packed, with the program that unpacks it.
    Packed(&'static str),
    Other,
}

/// As many bytes tell the kinds apart, where they are not damaged.
pub const LEN: usize = 4;

const PACKED: [(&[u8], &str); 4] = [
    (b"\x1F\x8B", "zcat"),
    (b"BZh", "bzcat"),
    (b"\xFD7zX", "xzcat"),
    (b"\x28\xB5\x2F\xFD", "zstdcat"),
];

/// The kind of a file that starts with these bytes.
pub fn of(start: &[u8]) -> Kind {
    if is_pcap(start) {
        return Kind::Pcap;
    }
    if is_pcapng(start) {
        return Kind::Pcapng;
    }
    let packed = PACKED.iter().find(|(magic, _)| start.starts_with(magic));
    if let Some((_, program)) = packed {
        return Kind::Packed(program);
    }
    match start.first() {
        Some(b'\t' | b'\n' | b'\r') | None => Kind::Text,
        // No UTF-8 text starts with 80 to BF, but every datagram of version 2 does.
        Some(0x00..=0x1F | 0x7F..=0xBF) if !is_mostly_hex(start) => Kind::Other,
        Some(_) => Kind::Text,
    }
}

/// Whether three quarters of the bytes are what hex digits are written with: a
/// text whose first line is damaged.
fn is_mostly_hex(start: &[u8]) -> bool {
    let is_hex = |byte: &&u8| byte.is_ascii_hexdigit() || b" \t\r\n:,x".contains(byte);
    let count = start.iter().filter(is_hex).count();
    4 * count >= 3 * start.len()
}
