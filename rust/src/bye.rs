use crate::ffi::{self, between, part};
use crate::{header, padding_count, RtcpPacket, RtcpPacketParser, RtcpParseError};
use std::borrow::Cow;
use std::iter::FusedIterator;
use std::string::FromUtf8Error;

/// A BYE packet.
///
/// ```
/// use bokyjave::{prelude::*, Bye};
///
/// let bye = Bye::parse(&[0x81, 203, 0, 2, 0, 0, 0, 7, 2, b'o', b'k', 0])?;
/// assert_eq!(bye.ssrcs().collect::<Vec<_>>(), [7]);
/// assert_eq!(bye.reason(), Some(&b"ok"[..]));
/// // An empty reason is not the same as none.
/// assert_eq!(Bye::parse(&[0x80, 203, 0, 1, 0, 0, 0, 0])?.reason(), Some(&b""[..]));
/// assert_eq!(Bye::parse(&[0x80, 203, 0, 0])?.reason(), None);
/// # Ok::<(), bokyjave::RtcpParseError>(())
/// ```
#[derive(Clone, Copy, Debug, PartialEq, Eq)]
pub struct Bye<'a> {
    data: &'a [u8],
    /// Where the reason and the padding start.
    reason: u32,
    body: u32,
    reason_len: Option<u8>,
    n_sources: u8,
}

impl RtcpPacket for Bye<'_> {
    const MIN_PACKET_LEN: usize = 4;
    const PACKET_TYPE: u8 = 203;
}

impl<'a> RtcpPacketParser<'a> for Bye<'a> {
    #[inline]
    fn parse(data: &'a [u8]) -> Result<Self, RtcpParseError> {
        let bye = ffi::rtcp_bye_parse(data).done()?;
        Ok(Bye {
            data,
            reason: bye.reason as u32,
            body: bye.body as u32,
            reason_len: (bye.has_reason != 0).then_some(bye.reason_len as u8),
            n_sources: bye.n_sources as u8,
        })
    }

    fn header_data(&self) -> [u8; 4] {
        header(self.data)
    }
}

impl<'a> Bye<'a> {
    /// The packet's bytes, header and padding included.
    pub fn bytes(&self) -> &'a [u8] {
        self.data
    }

    /// The padding, its count at the end; empty where the packet is not padded.
    pub fn padding_bytes(&self) -> &'a [u8] {
        &self.data[self.body as usize..]
    }

    /// The number of padding bytes, if the packet is padded.
    pub fn padding(&self) -> Option<u8> {
        padding_count(self.padding_bytes())
    }

    /// The sources that leave, one call of the library for each.
    pub fn ssrcs(&self) -> Sources<'a> {
        Sources {
            data: self.data,
            at: 0,
            count: self.n_sources,
        }
    }

    /// The source with an index from 0; 25 past the last.
    pub fn source(&self, index: usize) -> Result<u32, RtcpParseError> {
        let source = ffi::rtcp_bye_source(self.data, index as u64);
        Ok(source.done()?.ssrc as u32)
    }

    /// The reason, if there is one. It may be empty.
    pub fn reason(&self) -> Option<&'a [u8]> {
        let len = self.reason_len?;
        Some(part(self.data, self.reason.into(), len.into()))
    }

    /// The reason as a string.
    pub fn get_reason_string(&self) -> Option<Result<String, FromUtf8Error>> {
        self.reason()
            .map(|reason| String::from_utf8(reason.to_vec()))
    }

    /// The bytes after the reason.
    pub fn tail(&self) -> &'a [u8] {
        let reason_end = self.reason + u32::from(self.reason_len.unwrap_or(0));
        between(self.data, reason_end.into(), self.body.into())
    }

    /// A builder for a BYE packet.
    pub fn builder() -> ByeBuilder<'a> {
        ByeBuilder {
            padding: 0,
            sources: Vec::new(),
            reason: Cow::Borrowed(&[]),
        }
    }
}

/// The sources of a BYE packet.
#[derive(Clone, Debug)]
pub struct Sources<'a> {
    data: &'a [u8],
    at: u8,
    count: u8,
}

impl Iterator for Sources<'_> {
    type Item = u32;

    fn next(&mut self) -> Option<u32> {
        let source = ffi::rtcp_bye_source(self.data, self.at.into());
        let ssrc = source.done().ok()?.ssrc as u32;
        self.at += 1;
        Some(ssrc)
    }

    fn size_hint(&self) -> (usize, Option<usize>) {
        let left = usize::from(self.count - self.at);
        (left, Some(left))
    }
}

impl ExactSizeIterator for Sources<'_> {}

impl FusedIterator for Sources<'_> {}

/// A BYE packet to write. An empty reason is not written.
///
/// ```
/// use bokyjave::{prelude::*, Bye};
///
/// let mut buf = [0; 16];
/// let bye = Bye::builder().add_source(0x11223344).reason("ab").padding(4);
/// assert_eq!(bye.calculate_size(), Ok(16));
/// assert_eq!(bye.write_into(&mut buf), Ok(16));
/// assert_eq!(buf, *b"\xA1\xCB\x00\x03\x11\x22\x33\x44\x02ab\x00\x00\x00\x00\x04");
/// ```
#[derive(Clone, Debug)]
#[must_use = "a builder does nothing until it is written"]
pub struct ByeBuilder<'a> {
    padding: u8,
    sources: Vec<u32>,
    reason: Cow<'a, [u8]>,
}

/// The bytes of a string.
fn text<'a>(text: impl Into<Cow<'a, str>>) -> Cow<'a, [u8]> {
    match text.into() {
        Cow::Borrowed(text) => Cow::Borrowed(text.as_bytes()),
        Cow::Owned(text) => Cow::Owned(text.into_bytes()),
    }
}

impl<'a> ByeBuilder<'a> {
    /// The number of padding bytes.
    pub fn padding(mut self, padding: u8) -> Self {
        self.padding = padding;
        self
    }

    /// Adds a source.
    pub fn add_source(mut self, source: u32) -> Self {
        self.sources.push(source);
        self
    }

    /// Sets the reason.
    pub fn reason(mut self, reason: impl Into<Cow<'a, str>>) -> Self {
        self.reason = text(reason);
        self
    }

    /// Sets a reason that need not be text.
    pub fn reason_bytes(mut self, reason: impl Into<Cow<'a, [u8]>>) -> Self {
        self.reason = reason.into();
        self
    }

    /// Sets the reason, and holds a copy of it.
    pub fn reason_owned<'b>(self, reason: impl Into<Cow<'b, str>>) -> ByeBuilder<'static> {
        ByeBuilder {
            padding: self.padding,
            sources: self.sources,
            reason: text(reason).into_owned().into(),
        }
    }
}

packet_writer! {
    ByeBuilder<'_>, bye,
    rtcp_bye_size, rtcp_bye_write,
    rtcp_writer_add_bye(&bye.sources, &bye.reason, bye.padding.into())
}
