//! Datagrams in a text, one or more lines each.

use crate::hex::{self, Line, Open};
use crate::input::Input;
use std::collections::VecDeque;
use std::io::{self, Read};

/// A longer line, or a datagram of more bytes, is damaged.
const MOST: usize = 1 << 20;
/// As many lines may stand before a dump, as tcpdump writes them.
const MOST_TITLES: usize = 4;
const BYTE_ORDER_MARK: &[u8] = b"\xEF\xBB\xBF";

/// A datagram of a text.
pub struct Entry {
    /// The number of its first line, from 1.
    pub line: u64,
    /// What is written before it; empty where nothing is.
    pub label: Vec<u8>,
    pub data: Vec<u8>,
    /// Whether the bytes are a packet with its headers.
    pub is_packet: bool,
}

/// What comes next in a text.
pub enum Text {
    Entry(Entry),
    /// A line that is damaged, by its number, and why.
    Bad(u64, &'static str),
    /// A line that is not hex, by its number.
    NotHex(u64),
    End,
}

pub struct Lines<R> {
    input: Input<R>,
    line: u64,
    ready: VecDeque<Text>,
    /// The datagram whose lines are being read.
    open: Option<Entry>,
    /// Whether the last line ended in a comma.
    goes_on: bool,
    /// Whether a star stands for lines that are left out.
    is_repeated: bool,
    /// Whether the offsets of the dump are in octal.
    is_octal: bool,
    /// Lines that are not hex, which may be the title of a dump.
    titles: VecDeque<(u64, Vec<u8>)>,
}

impl<R: Read> Lines<R> {
    pub fn new(input: Input<R>) -> Self {
        Lines {
            input,
            line: 0,
            ready: VecDeque::new(),
            open: None,
            goes_on: false,
            is_repeated: false,
            is_octal: false,
            titles: VecDeque::new(),
        }
    }

    pub fn next(&mut self) -> io::Result<Text> {
        loop {
            if let Some(text) = self.ready.pop_front() {
                return Ok(text);
            }
            let Some(line) = self.read()? else {
                self.close();
                self.no_title(0);
                self.ready.push_back(Text::End);
                continue;
            };
            if line.len() > MOST {
                self.bad("too long");
                continue;
            }
            self.take(&line);
        }
    }

    /// The next line, without its end. More than a line may have is cut off.
    fn read(&mut self) -> io::Result<Option<Vec<u8>>> {
        let mut line = Vec::new();
        if self.line == 0 {
            self.pass_mark()?;
        }
        while self.input.fill(1)? == 1 {
            let window = self.input.window();
            let end = window.iter().position(|byte| *byte == b'\n');
            let part = end.unwrap_or(window.len());
            let room = (MOST + 1).saturating_sub(line.len());
            line.extend(&window[..part.min(room)]);
            self.input.pass(end.map_or(part, |end| end + 1));
            if end.is_some() {
                return Ok(Some(self.ended(line)));
            }
        }
        match line.is_empty() {
            true => Ok(None),
            false => Ok(Some(self.ended(line))),
        }
    }

    /// Passes over a byte order mark at the start.
    fn pass_mark(&mut self) -> io::Result<()> {
        self.input.fill(BYTE_ORDER_MARK.len())?;
        if self.input.window().starts_with(BYTE_ORDER_MARK) {
            self.input.pass(BYTE_ORDER_MARK.len());
        }
        Ok(())
    }

    fn ended(&mut self, mut line: Vec<u8>) -> Vec<u8> {
        self.line += 1;
        if line.ends_with(b"\r") {
            line.pop();
        }
        line
    }

    fn take(&mut self, text: &[u8]) {
        let open = Open {
            len: self.open.as_ref().map_or(0, |open| open.data.len()),
            is_octal: self.is_octal,
            is_repeated: self.is_repeated,
        };
        match hex::line(text, open) {
            Line::Blank => {
                self.close();
                self.no_title(0);
            }
            Line::Other => self.title(text),
            Line::Repeat if self.open.is_some() => self.is_repeated = true,
            Line::Repeat => self.bad("a star without a line before it"),
            Line::Bytes {
                label,
                bytes,
                goes_on,
            } => self.bytes(label, bytes, goes_on),
            Line::Dump {
                offset,
                bytes,
                is_packet,
                is_octal,
            } => {
                match offset {
                    0 => self.start(bytes, is_packet),
                    _ => self.dump(offset, bytes),
                }
                self.is_octal = is_octal;
            }
        }
    }

    /// A line of digits: a datagram, or a part of one.
    fn bytes(&mut self, label: &[u8], bytes: Vec<u8>, goes_on: bool) {
        self.no_title(0);
        match &mut self.open {
            Some(open) if self.goes_on && label.is_empty() && open.data.len() < MOST => {
                open.data.extend(bytes);
            }
            _ => {
                self.close();
                self.open = Some(Entry {
                    line: self.line,
                    label: label.to_vec(),
                    data: bytes,
                    is_packet: false,
                });
            }
        }
        self.goes_on = goes_on;
        if !goes_on {
            self.close();
        }
    }

    /// The first line of a dump.
    fn start(&mut self, bytes: Vec<u8>, is_packet: bool) {
        self.close();
        let titles: Vec<Vec<u8>> = self.titles.drain(..).map(|(_, title)| title).collect();
        self.open = Some(Entry {
            line: self.line,
            label: titles.join(&b' '),
            data: bytes,
            is_packet,
        });
    }

    /// A later line of a dump.
    fn dump(&mut self, offset: usize, bytes: Vec<u8>) {
        let is_repeated = std::mem::take(&mut self.is_repeated);
        let Some(open) = &mut self.open else {
            return self.bad("its offset is not 0, and no line is before it");
        };
        if bytes.is_empty() && offset + 1 == open.data.len() {
            // The second half of hexdump's last word is filled.
            open.data.truncate(offset);
            return self.close();
        }
        if is_repeated && offset <= MOST && open.data.len() >= 16 {
            while open.data.len() < offset {
                open.data.extend_from_within(open.data.len() - 16..);
            }
        }
        if offset != open.data.len() || open.data.len() > MOST {
            self.open = None;
            return self.bad("its offset does not follow from the lines before");
        }
        open.data.extend(bytes);
    }

    /// Ends the datagram whose lines were read.
    fn close(&mut self) {
        (self.is_repeated, self.goes_on) = (false, false);
        let open = self.open.take();
        self.ready.extend(open.map(Text::Entry));
    }

    fn bad(&mut self, why: &'static str) {
        self.close();
        self.no_title(0);
        self.ready.push_back(Text::Bad(self.line, why));
    }

    fn title(&mut self, text: &[u8]) {
        self.close();
        self.titles.push_back((self.line, text.to_vec()));
        self.no_title(MOST_TITLES);
    }

    /// All but the last lines that are not hex are no title either.
    fn no_title(&mut self, kept: usize) {
        let bad = self.titles.len().saturating_sub(kept);
        let bad = self.titles.drain(..bad);
        self.ready.extend(bad.map(|(line, _)| Text::NotHex(line)));
    }
}
