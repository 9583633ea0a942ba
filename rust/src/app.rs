use crate::ffi::{self, part};
use crate::{header, padding_count, RtcpPacket, RtcpPacketParser, RtcpParseError};
use std::string::FromUtf8Error;

/// An APP packet. Its subtype is
/// [`subtype`](crate::RtcpPacketParserExt::subtype).
///
/// ```
/// use bokyjave::{prelude::*, App};
///
/// let app = App::parse(b"\x85\xCC\x00\x03\x00\x00\x00\x07namedata")?;
/// assert_eq!((app.subtype(), app.ssrc(), app.name(), app.data()), (5, 7, *b"name", &b"data"[..]));
/// # Ok::<(), bokyjave::RtcpParseError>(())
/// ```
#[derive(Clone, Copy, Debug, PartialEq, Eq)]
pub struct App<'a> {
    packet: &'a [u8],
    ssrc: u32,
    /// Where the padding starts.
    body: u32,
    name: [u8; App::NAME_LEN],
}

impl RtcpPacket for App<'_> {
    const MIN_PACKET_LEN: usize = 12;
    const PACKET_TYPE: u8 = 204;
}

impl<'a> RtcpPacketParser<'a> for App<'a> {
    #[inline]
    fn parse(data: &'a [u8]) -> Result<Self, RtcpParseError> {
        let app = ffi::rtcp_app_parse(data).done()?;
        let name = part(data, app.name, app.name_len);
        Ok(App {
            packet: data,
            ssrc: app.ssrc as u32,
            body: app.body as u32,
            name: [name[0], name[1], name[2], name[3]],
        })
    }

    fn header_data(&self) -> [u8; 4] {
        header(self.packet)
    }
}

impl<'a> App<'a> {
    /// The bytes of a name.
    pub const NAME_LEN: usize = 4;

    /// The packet's bytes, header and padding included.
    pub fn bytes(&self) -> &'a [u8] {
        self.packet
    }

    /// The padding, its count at the end; empty where the packet is not padded.
    pub fn padding_bytes(&self) -> &'a [u8] {
        &self.packet[self.body as usize..]
    }

    /// The number of padding bytes, if the packet is padded.
    pub fn padding(&self) -> Option<u8> {
        padding_count(self.padding_bytes())
    }

    /// The SSRC of the sender.
    pub fn ssrc(&self) -> u32 {
        self.ssrc
    }

    /// The name, four bytes.
    pub fn name(&self) -> [u8; App::NAME_LEN] {
        self.name
    }

    /// The name up to its first zero, as a string.
    pub fn get_name_string(&self) -> Result<String, FromUtf8Error> {
        let name = self.name.split(|byte| *byte == 0).next();
        String::from_utf8(name.unwrap_or_default().to_vec())
    }

    /// The data.
    pub fn data(&self) -> &'a [u8] {
        &self.packet[Self::MIN_PACKET_LEN..self.body as usize]
    }

    /// A builder for an APP packet. A name shorter than four bytes is filled up
    /// with zeros.
    pub fn builder(ssrc: u32, name: &'a (impl AsRef<[u8]> + ?Sized)) -> AppBuilder<'a> {
        AppBuilder {
            ssrc,
            padding: 0,
            subtype: 0,
            name: name.as_ref(),
            data: &[],
        }
    }
}

/// An APP packet to write.
///
/// ```
/// use bokyjave::{prelude::*, App};
///
/// let mut buf = [0; 16];
/// App::builder(7, "name").subtype(5).data(b"data").write_into(&mut buf)?;
/// assert_eq!(buf, *b"\x85\xCC\x00\x03\x00\x00\x00\x07namedata");
/// # Ok::<(), bokyjave::RtcpWriteError>(())
/// ```
#[derive(Clone, Copy, Debug)]
#[must_use = "a builder does nothing until it is written"]
pub struct AppBuilder<'a> {
    ssrc: u32,
    padding: u8,
    subtype: u8,
    name: &'a [u8],
    data: &'a [u8],
}

impl<'a> AppBuilder<'a> {
    /// The number of padding bytes.
    pub fn padding(mut self, padding: u8) -> Self {
        self.padding = padding;
        self
    }

    /// The subtype, up to 31.
    pub fn subtype(mut self, subtype: u8) -> Self {
        self.subtype = subtype;
        self
    }

    /// The data, in full words.
    pub fn data(mut self, data: &'a [u8]) -> Self {
        self.data = data;
        self
    }
}

packet_writer! {
    AppBuilder<'_>, app,
    rtcp_app_size(app.subtype.into(), app.name, app.data, app.padding.into()),
    rtcp_app_write,
    rtcp_writer_add_app(app.subtype.into(), app.ssrc, app.name, app.data, app.padding.into())
}
