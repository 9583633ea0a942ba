//! One line of text: bytes as hex digits, in the ways that people write them.

/// A line, and what it holds.
pub enum Line<'a> {
    /// Nothing, or a comment.
    Blank,
    /// A datagram, or the part of it that this line has.
    Bytes {
        /// The text before the last tab; empty where there is none.
        label: &'a [u8],
        bytes: Vec<u8>,
        /// Whether a comma follows each byte, and the next line continues it.
        goes_on: bool,
    },
    /// A line of xxd, hexdump, od, tcpdump -x or tshark -x: an offset, and bytes.
    Dump {
        offset: usize,
        bytes: Vec<u8>,
        /// Whether it is of tcpdump or tshark, which show packets with their headers.
        is_packet: bool,
        /// Whether the offset is in octal.
        is_octal: bool,
    },
    /// A star, by which hexdump repeats the line before.
    Repeat,
    Other,
}

/// The dump that a line may continue.
#[derive(Clone, Copy)]
pub struct Open {
    pub len: usize,
    /// Whether its offsets are in octal.
    pub is_octal: bool,
    /// Whether a star stands for lines that are left out.
    pub is_repeated: bool,
}

/// Reads a line, which may continue a dump.
pub fn line(text: &[u8], open: Open) -> Line<'_> {
    let trimmed = text.trim_ascii();
    if trimmed.is_empty() || trimmed.starts_with(b"#") {
        // A tab with nothing after it is a datagram of no bytes.
        return match label(text) {
            (b"", _) => Line::Blank,
            (_, _) if trimmed.starts_with(b"#") => Line::Blank,
            (label, _) => Line::Bytes {
                label,
                bytes: Vec::new(),
                goes_on: false,
            },
        };
    }
    if trimmed == b"*" {
        return Line::Repeat;
    }
    if let Some(dump) = dump(trimmed, open) {
        return dump;
    }
    let (label, digits) = label(text);
    let commas = digits.iter().filter(|byte| **byte == b',').count();
    match bytes(digits) {
        Some(bytes) => Line::Bytes {
            label,
            goes_on: trimmed.ends_with(b",") && commas == bytes.len(),
            bytes,
        },
        None => Line::Other,
    }
}

/// The text before the last tab, and the text after it.
fn label(text: &[u8]) -> (&[u8], &[u8]) {
    match text.iter().rposition(|byte| *byte == b'\t') {
        Some(tab) => (&text[..tab], &text[tab + 1..]),
        None => (&text[..0], text),
    }
}

/// A line that starts with an offset.
fn dump(text: &[u8], open: Open) -> Option<Line<'_>> {
    let bare = text.strip_prefix(b"0x");
    let rest = bare.unwrap_or(text);
    let len = rest.iter().take_while(|it| it.is_ascii_hexdigit()).count();
    let (digits, rest) = rest.split_at(len);
    match rest.strip_prefix(b":") {
        Some(rest) => with_colon(digits, rest, bare.is_some()),
        None if bare.is_some() => None,
        None if len == 4 => of_wireshark(digits, rest, open),
        None => with_blank(digits, rest, open),
    }
}

/// `0010  80 c9 00 01   ....` (tshark -x, and Wireshark's copy of a frame).
fn of_wireshark<'a>(digits: &[u8], rest: &'a [u8], open: Open) -> Option<Line<'a>> {
    let offset = number(digits, 16)?;
    let shown = before(rest.trim_ascii_start(), b"  ");
    let is_pairs = shown
        .split(|byte| *byte == b' ')
        .all(|pair| pair.len() == 2);
    if !rest.starts_with(b"  ") || !is_pairs || offset != 0 && offset != open.len {
        return None;
    }
    Some(Line::Dump {
        offset,
        bytes: bytes(shown)?,
        is_packet: true,
        is_octal: false,
    })
}

/// `00000010: 80c9 0001  ....` (xxd), `0x0010:  80c9 0001` (tcpdump).
fn with_colon<'a>(digits: &[u8], rest: &'a [u8], is_packet: bool) -> Option<Line<'a>> {
    if digits.len() < 4 || !matches!(rest, [] | [b' ' | b'\t', ..]) {
        return None;
    }
    let shown = before(rest.trim_ascii_start(), b"  ");
    Some(Line::Dump {
        offset: number(digits, 16)?,
        bytes: bytes(shown)?,
        is_packet,
        is_octal: false,
    })
}

/// `00000010  80 c9 00 01  |....|` (hexdump -C), `0000010 c980 0100` (hexdump),
/// `0000020 80 c9 00 01` (od -tx1), `000010 80 c9 00 01` (od -Ax -tx1).
fn with_blank<'a>(digits: &[u8], rest: &'a [u8], open: Open) -> Option<Line<'a>> {
    let len = digits.len();
    let is_marked = rest.is_empty() || rest.starts_with(b" ");
    let is_wide = rest.is_empty() || rest.starts_with(b"  ");
    if !is_marked || !(6..=8).contains(&len) || len == 8 && !is_wide {
        return None;
    }
    let shown = before(rest, b"|").trim_ascii();
    let bytes = bytes(shown)?;
    // hexdump shows words and counts in hex, od shows bytes or words and counts in
    // octal. The second line says which.
    let is_hexdump = len == 7 && is_words(shown);
    let is_octal = len == 7
        && if open.len > 16 {
            open.is_octal
        } else {
            !is_hexdump
        };
    let other = number(digits, if is_octal { 16 } else { 8 });
    let is_other = len == 7 && open.len == 16 && other == Some(16);
    let is_octal = is_octal != is_other;
    let offset = number(digits, if is_octal { 8 } else { 16 })?;
    // Six digits may be bytes, unless they are an offset that can come.
    if len == 6 && offset != 0 && offset != open.len && !open.is_repeated {
        return None;
    }
    Some(Line::Dump {
        offset,
        bytes: if is_hexdump { swapped(&bytes) } else { bytes },
        is_packet: false,
        is_octal,
    })
}

/// Whether digits stand in groups of four, as hexdump has words.
fn is_words(text: &[u8]) -> bool {
    text.split(|byte| *byte == b' ')
        .all(|group| group.len() == 4)
}

/// The bytes of words whose low byte is written last.
fn swapped(words: &[u8]) -> Vec<u8> {
    words
        .chunks(2)
        .flat_map(|word| word.iter().rev())
        .copied()
        .collect()
}

/// The text up to a mark.
fn before<'a>(text: &'a [u8], mark: &[u8]) -> &'a [u8] {
    let end = text.windows(mark.len()).position(|part| part == mark);
    &text[..end.unwrap_or(text.len())]
}

fn number(digits: &[u8], base: u32) -> Option<usize> {
    let digits = std::str::from_utf8(digits).ok()?;
    usize::from_str_radix(digits, base).ok()
}

/// The bytes that pairs of hex digits give: joined, or with blanks, colons,
/// commas or dashes between, `0x` or `\x` before, and in braces or quotes.
pub fn bytes(text: &[u8]) -> Option<Vec<u8>> {
    let text = text
        .trim_ascii()
        .strip_suffix(b";")
        .unwrap_or(text.trim_ascii());
    let is_between = |byte: &u8| byte.is_ascii_whitespace() || b":,-{}[]\"'".contains(byte);
    let mut bytes = Vec::new();
    for token in text.split(is_between) {
        for digits in escapes(token) {
            pairs(digits, &mut bytes)?;
        }
    }
    Some(bytes)
}

/// A token without `0x`, or its parts between `\x`.
fn escapes(token: &[u8]) -> Vec<&[u8]> {
    match token.strip_prefix(b"0x").or(token.strip_prefix(b"0X")) {
        Some(digits) => vec![digits],
        None if token.starts_with(b"\\x") => {
            let parts = token.split(|byte| *byte == b'x');
            let parts = parts.map(|part| part.strip_suffix(b"\\").unwrap_or(part));
            parts.filter(|part| !part.is_empty()).collect()
        }
        None => vec![token],
    }
}

fn pairs(digits: &[u8], bytes: &mut Vec<u8>) -> Option<()> {
    if digits.len() % 2 != 0 {
        return None;
    }
    for pair in digits.chunks(2) {
        let value = |digit: u8| (digit as char).to_digit(16);
        bytes.push((16 * value(pair[0])? + value(pair[1])?) as u8);
    }
    Some(())
}
