//! RTCP (RFC 3550: SR, RR, SDES, BYE, APP and their compounds), read and
//! written by the proved functions of `librtcp.a`.
//!
//! Names are those of the crate rtcp-types 0.3.0; README.md of this package says
//! how a program moves from there. What is read, refused and written is decided by
//! the C functions. Reading borrows the caller's bytes and takes no heap memory.
//!
//! A datagram is read by [`Compound`], one packet by `parse` of its type:
//!
//! ```
//! use bokyjave::{prelude::*, Compound, Packet, SdesItem};
//!
//! let datagram = [
//!     0x80, 201, 0, 1, 0x11, 0x22, 0x33, 0x44, // RR
//!     0x81, 202, 0, 3, 0x11, 0x22, 0x33, 0x44, 1, 3, b'a', b'@', b'b', 0, 0, 0, // SDES
//! ];
//! for packet in Compound::parse(&datagram)? {
//!     match packet? {
//!         Packet::Rr(rr) => assert_eq!((rr.ssrc(), rr.n_reports()), (0x11223344, 0)),
//!         Packet::Sdes(sdes) => {
//!             for item in sdes.chunks().flat_map(|chunk| chunk.items()) {
//!                 assert_eq!((item.type_(), item.value()), (SdesItem::CNAME, &b"a@b"[..]));
//!             }
//!         }
//!         other => panic!("packet type {}", other.type_()),
//!     }
//! }
//! # Ok::<(), bokyjave::RtcpParseError>(())
//! ```
//!
//! Packets are written by builders, alone or as a datagram:
//!
//! ```
//! use bokyjave::{Compound, ReceiverReport, Sdes, SdesChunk, SdesItem};
//!
//! let name = SdesItem::builder(SdesItem::CNAME, "a@b");
//! let datagram = Compound::builder()
//!     .add_packet(ReceiverReport::builder(7))
//!     .add_packet(Sdes::builder().add_chunk(SdesChunk::builder(7).add_item(name)));
//! let mut buf = [0; 1500];
//! assert_eq!(datagram.write_into(&mut buf)?, 24);
//! # Ok::<(), bokyjave::RtcpWriteError>(())
//! ```
//!
//! The blocks of a report about the RTP packets that came are counted by a
//! [`Reception`] for each source.

#![deny(unsafe_code)]
#![deny(missing_docs)]
#![deny(missing_debug_implementations)]

/// Makes a builder a packet to write, by the C functions that give its size, write
/// it and add it to a datagram, with their arguments but for those that say where
/// it goes. The last two take the same; where the first does too, they stand once.
macro_rules! packet_writer {
    ($builder:ty, $packet:ident, $size:ident, $write:ident, $add:ident($($of_all:expr),*)) => {
        packet_writer! { $builder, $packet, $size($($of_all),*), $write, $add($($of_all),*) }
    };
    ($builder:ty, $packet:ident, $size:ident($($of_size:expr),*), $write:ident, $add:ident($($of_both:expr),*)) => {
        impl crate::RtcpPacketWriter for $builder {
            fn calculate_size(&self) -> Result<usize, crate::RtcpWriteError> {
                let $packet = self;
                crate::size(crate::ffi::$size($($of_size),*))
            }

            fn get_padding(&self) -> Option<u8> {
                match self.padding {
                    0 => None,
                    padding => Some(padding),
                }
            }

            #[inline]
            fn write(&self, buf: &mut [u8]) -> Result<usize, crate::RtcpWriteError> {
                let $packet = self;
                crate::size(crate::ffi::$write(buf, $($of_both),*))
            }

            fn add_to(
                &self,
                writer: &mut crate::CompoundWriter,
                buf: &mut [u8],
            ) -> Result<(), crate::RtcpWriteError> {
                let $packet = self;
                writer.call(|state| crate::ffi::$add(state, buf, $($of_both),*))
            }
        }
    };
}

mod app;
mod bye;
mod compound;
mod error;
#[allow(unsafe_code)]
mod ffi;
mod reception;
mod report;
mod sdes;
mod writer;

pub use app::{App, AppBuilder};
pub use bye::{Bye, ByeBuilder, Sources};
pub use compound::{Compound, Packet, Unknown};
pub use error::{RtcpParseError, RtcpWriteError};
pub use reception::Reception;
pub use report::{
    ReceiverReport, ReceiverReportBuilder, ReportBlock, ReportBlockBuilder, ReportBlocks,
    SenderReport, SenderReportBuilder,
};
pub use sdes::{
    Chunks, Items, LookupAnswer, Sdes, SdesBuilder, SdesChunk, SdesChunkBuilder, SdesItem,
    SdesItemBuilder,
};
pub use writer::{CompoundBuilder, CompoundWriter, PacketBuilder};

/// The commit that the library was proved from; a `+` behind it where a source was
/// changed after that commit.
pub fn proved_from() -> &'static str {
    ffi::proved_from()
}

/// The traits, for `use bokyjave::prelude::*`.
pub mod prelude {
    pub use super::{
        RtcpPacket, RtcpPacketParser, RtcpPacketParserExt, RtcpPacketWriter, RtcpPacketWriterExt,
    };
}

/// What is fixed of a kind of packet.
pub trait RtcpPacket {
    /// The version of the protocol.
    const VERSION: u8 = 2;
    /// The most blocks, chunks or sources of a packet.
    const MAX_COUNT: u8 = 0x1f;
    /// The least length of a packet.
    const MIN_PACKET_LEN: usize;
    /// The packet type.
    const PACKET_TYPE: u8;
}

/// A packet that is read from bytes.
///
/// ```
/// use bokyjave::{prelude::*, ReceiverReport};
///
/// let rr = ReceiverReport::parse(&[0x80, 201, 0, 1, 0, 0, 0, 7])?;
/// assert_eq!(rr.header_data(), [0x80, 201, 0, 1]);
/// assert_eq!((rr.version(), rr.type_(), rr.count(), rr.length()), (2, 201, 0, 8));
/// # Ok::<(), bokyjave::RtcpParseError>(())
/// ```
pub trait RtcpPacketParser<'a>: RtcpPacket + Sized {
    /// Reads one packet that takes up all the bytes.
    fn parse(data: &'a [u8]) -> Result<Self, RtcpParseError>;

    /// The first four bytes.
    fn header_data(&self) -> [u8; 4];
}

/// The fields of a packet's header.
pub trait RtcpPacketParserExt<'a>: RtcpPacketParser<'a> {
    /// The version of the protocol.
    fn version(&self) -> u8 {
        self.header_data()[0] >> 6
    }

    /// The packet type.
    fn type_(&self) -> u8 {
        self.header_data()[1]
    }

    /// The subtype; the same bits as [`count`](Self::count).
    fn subtype(&self) -> u8 {
        self.count()
    }

    /// The number of bytes.
    fn length(&self) -> usize {
        let [_, _, high, low] = self.header_data();
        4 * (usize::from(u16::from_be_bytes([high, low])) + 1)
    }

    /// The number of blocks, chunks or sources; the same bits as
    /// [`subtype`](Self::subtype).
    fn count(&self) -> u8 {
        self.header_data()[0] & Self::MAX_COUNT
    }
}

impl<'a, T: RtcpPacketParser<'a>> RtcpPacketParserExt<'a> for T {}

/// A packet to write: the builder of one of the five kinds.
pub trait RtcpPacketWriter: std::fmt::Debug + Send + Sync + sealed::Sealed {
    /// The size of the packet, or why it cannot be written.
    fn calculate_size(&self) -> Result<usize, RtcpWriteError>;

    /// The padding set, if any.
    fn get_padding(&self) -> Option<u8>;

    /// Writes the packet at the start of the buffer and gives its size. Use
    /// [`RtcpPacketWriterExt::write_into`].
    #[doc(hidden)]
    fn write(&self, buf: &mut [u8]) -> Result<usize, RtcpWriteError>;

    /// Adds the packet to a datagram. Use [`CompoundWriter::add`].
    #[doc(hidden)]
    fn add_to(&self, writer: &mut CompoundWriter, buf: &mut [u8]) -> Result<(), RtcpWriteError>;
}

/// The call that writes a packet.
pub trait RtcpPacketWriterExt: RtcpPacketWriter {
    /// Writes the packet at the start of the buffer and gives its size. Bytes
    /// after it stay as they are; on a refusal all do.
    ///
    /// ```
    /// use bokyjave::{prelude::*, Bye};
    ///
    /// let mut buf = [0x5A; 10];
    /// assert_eq!(Bye::builder().add_source(7).write_into(&mut buf), Ok(8));
    /// assert_eq!(buf, [0x81, 203, 0, 1, 0, 0, 0, 7, 0x5A, 0x5A]);
    /// ```
    #[inline]
    fn write_into(&self, buf: &mut [u8]) -> Result<usize, RtcpWriteError> {
        self.write(buf)
    }
}

impl<T: RtcpPacketWriter + ?Sized> RtcpPacketWriterExt for T {}

mod sealed {
    pub trait Sealed {}

    impl Sealed for crate::SenderReportBuilder {}
    impl Sealed for crate::ReceiverReportBuilder {}
    impl Sealed for crate::SdesBuilder<'_> {}
    impl Sealed for crate::ByeBuilder<'_> {}
    impl Sealed for crate::AppBuilder<'_> {}
    impl Sealed for crate::PacketBuilder<'_> {}
}

/// The header of a packet that was read.
fn header(packet: &[u8]) -> [u8; 4] {
    [packet[0], packet[1], packet[2], packet[3]]
}

/// The padding as the crate rtcp-types gives it: its count, or none.
fn padding_count(padding: &[u8]) -> Option<u8> {
    match padding.len() {
        0 => None,
        count => Some(count as u8),
    }
}

/// The size that a call gives.
#[inline]
fn size(written: ffi::RtcpWritten) -> Result<usize, RtcpWriteError> {
    Ok(written.done()?.size as usize)
}

/// Runs the examples of README.md.
#[cfg(doctest)]
#[doc = include_str!("../README.md")]
struct Readme;
