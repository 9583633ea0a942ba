//! The words of the command line.

use std::ffi::{OsStr, OsString};
use std::path::PathBuf;

pub const USAGE: &str = "\
usage: rtcpdump [OPTION...] [FILE...]

Prints every field of the RTCP datagrams in the files, or why one is refused
(docs/REFUSALS.md) and where, and a summary with a table of the sources. Without
a file, or for -, it reads standard input, and prints each datagram as it comes:

  tcpdump -U -w - udp | rtcpdump

Kinds of files, told apart by their first bytes:
  pcap        classic pcap, either byte order, micro- or nanoseconds
  pcapng      either byte order, any interfaces, simple and enhanced packets
  text        hex digits, a datagram a line, joined or as 80 c9, 80:c9 or
              0x80, 0xc9 (a comma at the end continues in the next line), with
              an optional text and a tab before; or what xxd, hexdump,
              hexdump -C, od -tx1, tcpdump -x or -xx and tshark -x print.
              Empty lines and lines that start with # are passed over
A packed file is unpacked first: zcat FILE | rtcpdump

From captures, tcpdump -x and tshark -x it takes the UDP datagrams over IPv4 and
IPv6 on Ethernet (also with VLAN tags), Linux cooked (SLL, SLL2), BSD loopback
and raw IP, fragments put together, whose version is 2 and whose second byte is
192 to 223, which is how RFC 5761 section 4 tells RTCP from RTP. Checksums are
not tested. After a damaged record it goes on with the next one that it finds.

  --all        take all UDP datagrams
  --port N     take only those from or to port N
  --raw        the whole file is one datagram
  --first N    print only the first N datagrams; the summary counts all
  --summary    print only the summary; the same as --first 0
  --ssrc X     print only the datagrams that name the source X, 8 hex digits,
               and only its row of the table; the summary counts all
  --brief      print one line a packet
  --json       print one JSON object a line (docs/RTCPDUMP.md)
  --html FILE  write a page with the table, the refusals, and drawings of loss
               and jitter over time
  --help, -h   print this text
  --version    print the version, and what the library was proved from

The exit status is 0 where all is read, refused datagrams included; 1 where a
file, a record or a line is damaged, or a file or a link type cannot be read; 2
where the options are wrong.
";

/// What is printed of a datagram.
#[derive(Clone, Copy, PartialEq, Eq)]
pub enum Style {
    Full,
    Brief,
    Json,
}

pub struct Options {
    pub files: Vec<OsString>,
    pub is_raw: bool,
    /// Whether UDP datagrams are taken that are not RTCP by their first bytes.
    pub takes_all: bool,
    pub port: Option<u16>,
    /// How many datagrams to print.
    pub most: u64,
    pub ssrc: Option<u32>,
    pub style: Style,
    pub html: Option<PathBuf>,
}

/// What the words ask for.
pub enum Asked {
    Dump(Options),
    Usage,
    Version,
}

impl Options {
    pub fn of(mut words: impl Iterator<Item = OsString>) -> Result<Asked, String> {
        let mut options = Options {
            files: Vec::new(),
            is_raw: false,
            takes_all: false,
            port: None,
            most: u64::MAX,
            ssrc: None,
            style: Style::Full,
            html: None,
        };
        while let Some(word) = words.next() {
            match word.to_str() {
                Some("--help" | "-h") => return Ok(Asked::Usage),
                Some("--version") => return Ok(Asked::Version),
                Some("--") => options.files.extend(words.by_ref()),
                Some("-") => options.files.push(word),
                _ if is_option(&word) => options.option(&word, &mut words)?,
                _ => options.files.push(word),
            }
        }
        if options.files.is_empty() {
            options.files.push("-".into());
        }
        Ok(Asked::Dump(options))
    }

    fn option(
        &mut self,
        word: &OsStr,
        words: &mut impl Iterator<Item = OsString>,
    ) -> Result<(), String> {
        match word.to_str() {
            Some("--all") => self.takes_all = true,
            Some("--raw") => self.is_raw = true,
            Some("--summary") => self.most = 0,
            Some("--brief") => self.style = Style::Brief,
            Some("--json") => self.style = Style::Json,
            Some("--first") => self.most = number("--first", words.next())?,
            Some("--port") => self.port = Some(number("--port", words.next())?),
            Some("--ssrc") => self.ssrc = Some(ssrc(words.next())?),
            Some("--html") => {
                let file = words.next().ok_or("--html wants a file")?;
                self.html = Some(file.into());
            }
            _ => return Err(format!("no option {word:?}")),
        }
        Ok(())
    }
}

fn is_option(word: &OsStr) -> bool {
    word.as_encoded_bytes().starts_with(b"-")
}

fn number<T: std::str::FromStr>(option: &str, word: Option<OsString>) -> Result<T, String> {
    let word = word.ok_or_else(|| format!("{option} wants a number"))?;
    let digits = word.to_str().and_then(|word| word.parse().ok());
    digits.ok_or_else(|| format!("{option} wants a number, not {word:?}"))
}

fn ssrc(word: Option<OsString>) -> Result<u32, String> {
    let word = word.ok_or("--ssrc wants hex digits")?;
    let digits = word.to_str().map(|word| word.trim_start_matches("0x"));
    let ssrc = digits.and_then(|digits| u32::from_str_radix(digits, 16).ok());
    ssrc.ok_or_else(|| format!("--ssrc wants hex digits, not {word:?}"))
}
