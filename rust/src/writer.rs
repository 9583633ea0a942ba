use crate::ffi;
use crate::{
    AppBuilder, ByeBuilder, ReceiverReportBuilder, RtcpPacketWriter, RtcpWriteError, SdesBuilder,
    SenderReportBuilder,
};
use std::marker::PhantomData;

/// The compound writer: a datagram is written packet by packet, and closed. It
/// holds the length so far; the same buffer is lent at each call.
///
/// ```
/// use bokyjave::{CompoundWriter, ReceiverReport, RtcpWriteError, Sdes, SdesChunk, SdesItem};
///
/// let mut buf = [0; 64];
/// let mut writer = CompoundWriter::new();
/// assert_eq!(writer.add(&mut buf, &ReceiverReport::builder(7)), Ok(8));
/// assert_eq!(writer.close(), Err(RtcpWriteError::NoCname));
/// let name = SdesItem::builder(SdesItem::CNAME, "a@b");
/// let names = Sdes::builder().add_chunk(SdesChunk::builder(7).add_item(name));
/// assert_eq!(writer.add(&mut buf, &names), Ok(24));
/// assert_eq!(writer.close(), Ok(24));
/// ```
#[derive(Clone, Copy, Debug, PartialEq, Eq)]
pub struct CompoundWriter {
    state: ffi::RtcpWriter,
}

impl Default for CompoundWriter {
    fn default() -> Self {
        Self::new()
    }
}

impl CompoundWriter {
    /// A writer of an empty datagram.
    pub fn new() -> Self {
        let mut state = ffi::RtcpWriter::default();
        ffi::rtcp_writer_new(&mut state);
        CompoundWriter { state }
    }

    /// The length of the datagram so far.
    pub fn len(&self) -> usize {
        self.state.length as usize
    }

    /// Whether no packet is in the datagram.
    pub fn is_empty(&self) -> bool {
        self.len() == 0
    }

    /// Adds a packet and gives the length with it. A refusal changes neither the
    /// writer nor the buffer.
    pub fn add(
        &mut self,
        buf: &mut [u8],
        packet: &(impl RtcpPacketWriter + ?Sized),
    ) -> Result<usize, RtcpWriteError> {
        packet.add_to(self, buf)?;
        Ok(self.len())
    }

    /// Closes the datagram and gives its length.
    pub fn close(&mut self) -> Result<usize, RtcpWriteError> {
        self.call(ffi::rtcp_writer_close)?;
        Ok(self.len())
    }

    /// Makes a call, and lends it the state.
    pub(crate) fn call(
        &mut self,
        call: impl FnOnce(&mut ffi::RtcpWriter) -> ffi::RtcpCall,
    ) -> Result<(), RtcpWriteError> {
        call(&mut self.state).done()?;
        Ok(())
    }
}

/// A datagram to write.
///
/// ```
/// use bokyjave::{Bye, Compound, ReceiverReport, RtcpWriteError, Sdes, SdesChunk, SdesItem};
///
/// let name = SdesItem::builder(SdesItem::CNAME, "a@b");
/// let datagram = Compound::builder()
///     .add_packet(ReceiverReport::builder(7))
///     .add_packet(Sdes::builder().add_chunk(SdesChunk::builder(7).add_item(name)))
///     .add_packet(Bye::builder().add_source(7));
/// let mut buf = vec![0; datagram.calculate_size()?];
/// assert_eq!(datagram.write_into(&mut buf)?, 32);
/// assert_eq!(Compound::parse(&buf).map(|read| read.n_packets()), Ok(3));
/// # Ok::<(), RtcpWriteError>(())
/// ```
#[derive(Clone, Debug, Default)]
#[must_use = "a builder does nothing until it is written"]
pub struct CompoundBuilder<'a> {
    writer: CompoundWriter,
    /// The datagram so far, and room for more.
    datagram: Vec<u8>,
    /// Why a packet could not be added. None is added after it.
    refused: Option<RtcpWriteError>,
    lent: PhantomData<&'a [u8]>,
}

impl<'a> CompoundBuilder<'a> {
    /// The room that a datagram begins with.
    const ROOM: usize = 512;

    /// Adds a packet. It is written at once, into memory of the builder's own; a
    /// refusal is given by [`write_into`](Self::write_into) and
    /// [`calculate_size`](Self::calculate_size).
    pub fn add_packet(mut self, packet: impl RtcpPacketWriter + 'a) -> Self {
        if self.refused.is_none() {
            self.refused = self.add(&packet).err();
        }
        self
    }

    /// Makes the writer's call, with more room where that is missing.
    fn add(&mut self, packet: &impl RtcpPacketWriter) -> Result<(), RtcpWriteError> {
        if self.datagram.is_empty() {
            self.datagram.resize(Self::ROOM, 0);
        }
        match packet.add_to(&mut self.writer, &mut self.datagram) {
            Err(RtcpWriteError::OutputTooSmall(size)) => {
                self.datagram.resize(size.max(2 * self.datagram.len()), 0);
                packet.add_to(&mut self.writer, &mut self.datagram)
            }
            added => added,
        }
    }

    /// The size of the datagram, or why it cannot be written.
    pub fn calculate_size(&self) -> Result<usize, RtcpWriteError> {
        match self.refused {
            Some(refused) => Err(refused),
            None => { self.writer }.close(),
        }
    }

    /// Copies the datagram to the start of the buffer and gives its size. Bytes
    /// after it stay as they are; on a refusal all do. 10 names the length with
    /// the first packet that has no room; [`calculate_size`](Self::calculate_size)
    /// gives the whole.
    pub fn write_into(&self, buf: &mut [u8]) -> Result<usize, RtcpWriteError> {
        let written = &self.datagram[..self.writer.len()];
        let Some(room) = buf.get_mut(..written.len()) else {
            return Err(RtcpWriteError::OutputTooSmall(first_end_past(
                written,
                buf.len(),
            )));
        };
        let size = self.calculate_size()?;
        room.copy_from_slice(written);
        Ok(size)
    }
}

/// Where the first of the packets ends that reaches past a length, as the library
/// walks over them.
fn first_end_past(packets: &[u8], len: usize) -> usize {
    let mut end = 0;
    while end <= len {
        match ffi::rtcp_walk_step(packets, end as u64).done() {
            Ok(step) => end = step.at as usize,
            Err(_) => return packets.len(),
        }
    }
    end
}

/// A packet of any of the five kinds to write.
///
/// ```
/// use bokyjave::{prelude::*, App, Bye, PacketBuilder};
///
/// let packets: [PacketBuilder; 2] = [Bye::builder().into(), App::builder(7, "name").into()];
/// let sizes = packets.iter().map(|packet| packet.calculate_size());
/// assert_eq!(sizes.sum::<Result<usize, _>>(), Ok(16));
/// ```
#[derive(Clone, Debug)]
#[must_use = "a builder does nothing until it is written"]
pub enum PacketBuilder<'a> {
    /// An APP packet.
    App(AppBuilder<'a>),
    /// A BYE packet.
    Bye(ByeBuilder<'a>),
    /// A receiver report.
    Rr(ReceiverReportBuilder),
    /// An SDES packet.
    Sdes(SdesBuilder<'a>),
    /// A sender report.
    Sr(SenderReportBuilder),
}

impl<'a> PacketBuilder<'a> {
    fn packet(&self) -> &(dyn RtcpPacketWriter + 'a) {
        match self {
            PacketBuilder::App(packet) => packet,
            PacketBuilder::Bye(packet) => packet,
            PacketBuilder::Rr(packet) => packet,
            PacketBuilder::Sdes(packet) => packet,
            PacketBuilder::Sr(packet) => packet,
        }
    }
}

impl RtcpPacketWriter for PacketBuilder<'_> {
    fn calculate_size(&self) -> Result<usize, RtcpWriteError> {
        self.packet().calculate_size()
    }

    fn get_padding(&self) -> Option<u8> {
        self.packet().get_padding()
    }

    fn write(&self, buf: &mut [u8]) -> Result<usize, RtcpWriteError> {
        self.packet().write(buf)
    }

    fn add_to(&self, writer: &mut CompoundWriter, buf: &mut [u8]) -> Result<(), RtcpWriteError> {
        self.packet().add_to(writer, buf)
    }
}

macro_rules! builders {
    ($($variant:ident $builder:ty)*) => { $(
        impl<'a> From<$builder> for PacketBuilder<'a> {
            fn from(packet: $builder) -> Self {
                PacketBuilder::$variant(packet)
            }
        }
    )* };
}

builders! {
    App AppBuilder<'a>
    Bye ByeBuilder<'a>
    Rr ReceiverReportBuilder
    Sdes SdesBuilder<'a>
    Sr SenderReportBuilder
}
