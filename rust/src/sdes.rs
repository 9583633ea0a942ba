use crate::ffi::{self, answer_bytes, between, part};
use crate::{
    header, padding_count, size, RtcpPacket, RtcpPacketParser, RtcpParseError, RtcpWriteError,
};
use std::borrow::Cow;
use std::fmt;
use std::iter::FusedIterator;
use std::marker::PhantomData;
use std::string::FromUtf8Error;

/// An SDES packet.
///
/// ```
/// use bokyjave::{prelude::*, Sdes, SdesItem};
///
/// let sdes = Sdes::parse(b"\x81\xCA\x00\x03\x11\x22\x33\x44\x01\x03a@b\x00\x00\x00")?;
/// for chunk in sdes.chunks() {
///     assert_eq!((chunk.ssrc(), chunk.length()), (0x11223344, 12));
///     for item in chunk.items() {
///         assert_eq!((item.type_(), item.value()), (SdesItem::CNAME, &b"a@b"[..]));
///     }
/// }
/// # Ok::<(), bokyjave::RtcpParseError>(())
/// ```
#[derive(Clone, Copy, Debug, PartialEq, Eq)]
pub struct Sdes<'a> {
    data: &'a [u8],
}

impl RtcpPacket for Sdes<'_> {
    const MIN_PACKET_LEN: usize = 4;
    const PACKET_TYPE: u8 = 202;
}

impl<'a> RtcpPacketParser<'a> for Sdes<'a> {
    #[inline]
    fn parse(data: &'a [u8]) -> Result<Self, RtcpParseError> {
        ffi::rtcp_sdes_parse(data).done()?;
        Ok(Sdes { data })
    }

    fn header_data(&self) -> [u8; 4] {
        header(self.data)
    }
}

impl<'a> Sdes<'a> {
    /// The SDES packet that these bytes are, as the library has said.
    #[inline]
    pub(crate) fn accepted(data: &'a [u8]) -> Self {
        Sdes { data }
    }

    /// The packet's bytes, header and padding included.
    pub fn bytes(&self) -> &'a [u8] {
        self.data
    }

    /// The padding, its count at the end; empty where the packet is not padded.
    pub fn padding_bytes(&self) -> &'a [u8] {
        let sdes = ffi::rtcp_sdes_parse(self.data);
        part(self.data, sdes.body, sdes.padding_len)
    }

    /// The number of padding bytes, if the packet is padded.
    pub fn padding(&self) -> Option<u8> {
        padding_count(self.padding_bytes())
    }

    /// The number of chunks.
    #[inline]
    pub fn n_chunks(&self) -> u8 {
        self.data[0] & Self::MAX_COUNT
    }

    /// Whether some chunk has a CNAME.
    pub fn has_cname(&self) -> bool {
        ffi::rtcp_sdes_parse(self.data).has_cname != 0
    }

    /// The chunks, one call of the library for each.
    #[inline]
    pub fn chunks(&self) -> Chunks<'a> {
        Chunks {
            rest: &self.data[Self::MIN_PACKET_LEN..],
            left: self.n_chunks(),
        }
    }

    /// Looks up many sources in one pass: for each SSRC of the list, the first
    /// chunk that has it and a CNAME, if there is one. `answers[i]` is about
    /// `ssrcs[i]`; answers past the list stay as they are, on a refusal all do.
    /// 31 where there are more SSRCs than answers.
    ///
    /// The number is that of the chunks looked at. It is at most
    /// [`n_chunks`](Self::n_chunks), and no more is promised of it.
    ///
    /// ```
    /// use bokyjave::{prelude::*, LookupAnswer, Sdes, SdesChunk, SdesItem};
    ///
    /// // A note about source 7, then its name, and a name of source 8.
    /// let chunk = |ssrc, type_| {
    ///     SdesChunk::builder(ssrc).add_item(SdesItem::builder(type_, "a@b"))
    /// };
    /// let mut buf = [0; 40];
    /// Sdes::builder()
    ///     .add_chunk(chunk(7, SdesItem::NOTE))
    ///     .add_chunk(chunk(7, SdesItem::CNAME))
    ///     .add_chunk(chunk(8, SdesItem::CNAME))
    ///     .write_into(&mut buf)?;
    ///
    /// let sdes = Sdes::parse(&buf)?;
    /// let mut answers = [LookupAnswer::NONE; 3];
    /// sdes.lookup(&[8, 7, 9], &mut answers)?;
    /// assert_eq!(answers.map(|answer| answer.chunk()), [Some(2), Some(1), None]);
    /// # Ok::<(), Box<dyn std::error::Error>>(())
    /// ```
    #[inline]
    pub fn lookup(
        &self,
        ssrcs: &[u32],
        answers: &mut [LookupAnswer],
    ) -> Result<usize, RtcpParseError> {
        let lookup = ffi::rtcp_sdes_lookup(self.data, ssrcs, answer_bytes(answers)).done()?;
        Ok(lookup.visits as usize)
    }

    /// A builder for an SDES packet.
    pub fn builder() -> SdesBuilder<'a> {
        SdesBuilder::default()
    }
}

/// What [`Sdes::lookup`] answers about an SSRC: a chunk, or none. It is one byte,
/// so a list of answers is lent to the library as it stands.
#[derive(Clone, Copy, PartialEq, Eq)]
#[repr(transparent)]
pub struct LookupAnswer(u8);

impl LookupAnswer {
    /// No chunk.
    pub const NONE: Self = LookupAnswer(255);
    /// The bits of an answer that are a chunk's index.
    const INDEX: u8 = 0x1f;

    /// The index of the chunk, from 0.
    #[inline]
    pub fn chunk(self) -> Option<u8> {
        match self {
            Self::NONE => None,
            LookupAnswer(bits) => Some(bits & Self::INDEX),
        }
    }
}

impl Default for LookupAnswer {
    fn default() -> Self {
        Self::NONE
    }
}

impl fmt::Debug for LookupAnswer {
    fn fmt(&self, f: &mut fmt::Formatter<'_>) -> fmt::Result {
        f.debug_tuple("LookupAnswer").field(&self.chunk()).finish()
    }
}

/// The chunks of an SDES packet.
#[derive(Clone, Debug)]
pub struct Chunks<'a> {
    /// The packet's bytes from the next chunk on.
    rest: &'a [u8],
    left: u8,
}

impl<'a> Iterator for Chunks<'a> {
    type Item = SdesChunk<'a>;

    #[inline]
    fn next(&mut self) -> Option<SdesChunk<'a>> {
        self.left = self.left.checked_sub(1)?;
        let chunk = SdesChunk::parse(self.rest).ok()?;
        self.rest = &self.rest[chunk.length()..];
        Some(chunk)
    }

    fn size_hint(&self) -> (usize, Option<usize>) {
        let left = usize::from(self.left);
        (left, Some(left))
    }
}

impl ExactSizeIterator for Chunks<'_> {}

impl FusedIterator for Chunks<'_> {}

/// A chunk of an SDES packet: a source and what is said of it.
#[derive(Clone, Copy, Debug, PartialEq, Eq)]
pub struct SdesChunk<'a> {
    data: &'a [u8],
    ssrc: u32,
    /// The place of the first CNAME, 0 where there is none.
    cname: u64,
}

impl<'a> SdesChunk<'a> {
    /// The bytes before the first item.
    const MIN_LEN: u64 = 4;

    /// Reads the chunk at the start of the bytes. Its [`length`](Self::length)
    /// says where it ends.
    ///
    /// ```
    /// use bokyjave::SdesChunk;
    ///
    /// let chunk = SdesChunk::parse(b"\x00\x00\x00\x07\x01\x01a\x00next")?;
    /// assert_eq!((chunk.ssrc(), chunk.length(), chunk.items().count()), (7, 8, 1));
    /// # Ok::<(), bokyjave::RtcpParseError>(())
    /// ```
    #[inline]
    pub fn parse(data: &'a [u8]) -> Result<Self, RtcpParseError> {
        let chunk = ffi::rtcp_chunk_parse(data).done()?;
        Ok(SdesChunk {
            data: part(data, 0, chunk.length),
            ssrc: chunk.ssrc as u32,
            cname: chunk.cname,
        })
    }

    /// The SSRC of the source.
    pub fn ssrc(&self) -> u32 {
        self.ssrc
    }

    /// The bytes that the chunk takes up.
    pub fn length(&self) -> usize {
        self.data.len()
    }

    /// The items, one call of the library for each.
    #[inline]
    pub fn items(&self) -> Items<'a> {
        Items {
            data: self.data,
            at: Self::MIN_LEN,
        }
    }

    /// The first CNAME of the chunk.
    ///
    /// ```
    /// use bokyjave::SdesChunk;
    ///
    /// let chunk = SdesChunk::parse(b"\x00\x00\x00\x07\x02\x01n\x01\x01c\x00\x00")?;
    /// assert_eq!(chunk.cname().map(|item| item.value()), Some(&b"c"[..]));
    /// # Ok::<(), bokyjave::RtcpParseError>(())
    /// ```
    pub fn cname(&self) -> Option<SdesItem<'a>> {
        match self.cname {
            0 => None,
            at => Items {
                data: self.data,
                at,
            }
            .next(),
        }
    }

    /// A builder for a chunk about a source.
    pub fn builder(ssrc: u32) -> SdesChunkBuilder<'a> {
        SdesChunkBuilder {
            ssrc,
            items: Vec::new(),
        }
    }
}

/// The items of a chunk.
#[derive(Clone, Debug)]
pub struct Items<'a> {
    data: &'a [u8],
    at: u64,
}

impl<'a> Iterator for Items<'a> {
    type Item = SdesItem<'a>;

    #[inline]
    fn next(&mut self) -> Option<SdesItem<'a>> {
        let step = ffi::rtcp_item_walk_step(self.data, self.at).done().ok()?;
        let item = SdesItem {
            data: between(self.data, self.at, step.at),
            type_: step.type_ as u8,
            length: step.length as usize,
            value: part(self.data, step.value, step.value_len),
        };
        self.at = step.at;
        Some(item)
    }
}

impl FusedIterator for Items<'_> {}

/// An item of a chunk.
#[derive(Clone, Copy, Debug, PartialEq, Eq)]
pub struct SdesItem<'a> {
    data: &'a [u8],
    type_: u8,
    length: usize,
    value: &'a [u8],
}

impl<'a> SdesItem<'a> {
    /// The name by which a source is known throughout a session.
    pub const CNAME: u8 = 0x01;
    /// A name to show.
    pub const NAME: u8 = 0x02;
    /// A mail address.
    pub const EMAIL: u8 = 0x03;
    /// A phone number.
    pub const PHONE: u8 = 0x04;
    /// A place.
    pub const LOC: u8 = 0x05;
    /// The program and its version.
    pub const TOOL: u8 = 0x06;
    /// A note.
    pub const NOTE: u8 = 0x07;
    /// A private item: a prefix and a value.
    pub const PRIV: u8 = 0x08;

    /// Reads the item at the start of the bytes.
    ///
    /// ```
    /// use bokyjave::SdesItem;
    ///
    /// let item = SdesItem::parse(b"\x08\x04\x02abc")?;
    /// assert_eq!((item.type_(), item.length(), item.value()), (SdesItem::PRIV, 4, &b"c"[..]));
    /// assert_eq!(item.priv_prefix(), Ok(&b"ab"[..]));
    /// # Ok::<(), bokyjave::RtcpParseError>(())
    /// ```
    pub fn parse(data: &'a [u8]) -> Result<Self, RtcpParseError> {
        let item = ffi::rtcp_item_parse(data).done()?;
        Ok(SdesItem {
            data: between(data, 0, item.value + item.value_len),
            type_: item.type_ as u8,
            length: item.length as usize,
            value: part(data, item.value, item.value_len),
        })
    }

    /// The type.
    pub fn type_(&self) -> u8 {
        self.type_
    }

    /// The item's length field: its bytes after the first two.
    pub fn length(&self) -> usize {
        self.length
    }

    /// The value, in PRIV without the prefix.
    pub fn value(&self) -> &'a [u8] {
        self.value
    }

    /// The value as a string.
    pub fn get_value_string(&self) -> Result<String, FromUtf8Error> {
        String::from_utf8(self.value.to_vec())
    }

    /// The prefix of a PRIV item; 30 where it is none.
    ///
    /// ```
    /// use bokyjave::{RtcpParseError, SdesItem};
    ///
    /// let item = SdesItem::parse(b"\x01\x01a")?;
    /// assert_eq!(item.priv_prefix(), Err(RtcpParseError::NotPriv(SdesItem::CNAME)));
    /// # Ok::<(), RtcpParseError>(())
    /// ```
    pub fn priv_prefix(&self) -> Result<&'a [u8], RtcpParseError> {
        let prefix = ffi::rtcp_item_priv_prefix(self.data).done()?;
        Ok(part(self.data, prefix.offset, prefix.len))
    }

    /// The length of the prefix of a PRIV item; 30 where it is none.
    pub fn priv_prefix_len(&self) -> Result<u8, RtcpParseError> {
        Ok(self.priv_prefix()?.len() as u8)
    }

    /// A builder for an item. The value may be text or other bytes.
    pub fn builder(type_: u8, value: &'a (impl AsRef<[u8]> + ?Sized)) -> SdesItemBuilder<'a> {
        SdesItemBuilder {
            type_,
            prefix: Cow::Borrowed(&[]),
            value: Cow::Borrowed(value.as_ref()),
        }
    }
}

/// An SDES packet to write.
///
/// ```
/// use bokyjave::{prelude::*, Sdes, SdesChunk, SdesItem};
///
/// let name = SdesItem::builder(SdesItem::CNAME, "a@b");
/// let sdes = Sdes::builder().add_chunk(SdesChunk::builder(0x11223344).add_item(name));
/// let mut buf = [0; 16];
/// assert_eq!(sdes.write_into(&mut buf), Ok(16));
/// assert_eq!(buf, *b"\x81\xCA\x00\x03\x11\x22\x33\x44\x01\x03a@b\x00\x00\x00");
/// ```
#[derive(Clone, Debug, Default)]
#[must_use = "a builder does nothing until it is written"]
pub struct SdesBuilder<'a> {
    padding: u8,
    ssrcs: Vec<u32>,
    counts: Vec<u64>,
    items: ItemLists,
    lent: PhantomData<&'a [u8]>,
}

impl<'a> SdesBuilder<'a> {
    /// The number of padding bytes.
    pub fn padding(mut self, padding: u8) -> Self {
        self.padding = padding;
        self
    }

    /// Adds a chunk. There is room at once for as many as a packet has.
    pub fn add_chunk(mut self, chunk: SdesChunkBuilder<'a>) -> Self {
        if self.ssrcs.is_empty() {
            let most = usize::from(Sdes::MAX_COUNT);
            self.ssrcs = Vec::with_capacity(most);
            self.counts = Vec::with_capacity(most);
            self.items = ItemLists::with_room(most.max(chunk.items.len()));
        }
        self.ssrcs.push(chunk.ssrc);
        self.counts.push(chunk.items.len() as u64);
        chunk.items.iter().for_each(|item| self.items.push(item));
        self
    }
}

packet_writer! {
    SdesBuilder<'_>, sdes,
    rtcp_sdes_size, rtcp_sdes_write,
    rtcp_writer_add_sdes(
        &sdes.ssrcs, &sdes.counts, &sdes.items.types, &sdes.items.prefixes, &sdes.items.values,
        &sdes.items.bytes, sdes.padding.into()
    )
}

/// Items as the library takes them: a type and two lengths for each, and one run
/// of bytes, prefix then value.
#[derive(Clone, Debug, Default)]
struct ItemLists {
    types: Vec<u8>,
    prefixes: Vec<u64>,
    values: Vec<u64>,
    bytes: Vec<u8>,
}

impl ItemLists {
    /// Empty lists with room for so many items, of 16 bytes each or less.
    fn with_room(items: usize) -> Self {
        ItemLists {
            types: Vec::with_capacity(items),
            prefixes: Vec::with_capacity(items),
            values: Vec::with_capacity(items),
            bytes: Vec::with_capacity(16 * items),
        }
    }

    fn of(items: &[SdesItemBuilder]) -> Self {
        let mut lists = Self::with_room(items.len());
        items.iter().for_each(|item| lists.push(item));
        lists
    }

    fn push(&mut self, item: &SdesItemBuilder) {
        self.types.push(item.type_);
        self.prefixes.push(item.prefix.len() as u64);
        self.values.push(item.value.len() as u64);
        self.bytes.extend_from_slice(&item.prefix);
        self.bytes.extend_from_slice(&item.value);
    }
}

/// A chunk to write, in a packet or alone.
///
/// ```
/// use bokyjave::{SdesChunk, SdesItem};
///
/// let chunk = SdesChunk::builder(7).add_item(SdesItem::builder(SdesItem::NOTE, "a"));
/// let mut buf = [0; 8];
/// assert_eq!(chunk.write_into(&mut buf), Ok(8));
/// assert_eq!(buf, [0, 0, 0, 7, 7, 1, b'a', 0]);
/// ```
#[derive(Clone, Debug)]
#[must_use = "a builder does nothing until it is added to a packet or written"]
pub struct SdesChunkBuilder<'a> {
    ssrc: u32,
    items: Vec<SdesItemBuilder<'a>>,
}

impl<'a> SdesChunkBuilder<'a> {
    /// Adds an item.
    pub fn add_item(mut self, item: SdesItemBuilder<'a>) -> Self {
        self.items.push(item);
        self
    }

    /// Adds an item, and holds a copy of what it borrows.
    pub fn add_item_owned(self, item: SdesItemBuilder<'_>) -> Self {
        self.add_item(item.into_owned())
    }

    /// The size of the lone chunk, or why it cannot be written.
    pub fn calculate_size(&self) -> Result<usize, RtcpWriteError> {
        let items = ItemLists::of(&self.items);
        size(ffi::rtcp_chunk_size(
            &items.types,
            &items.prefixes,
            &items.values,
            &items.bytes,
        ))
    }

    /// Writes the lone chunk at the start of the buffer and gives its size.
    pub fn write_into(&self, buf: &mut [u8]) -> Result<usize, RtcpWriteError> {
        let items = ItemLists::of(&self.items);
        size(ffi::rtcp_chunk_write(
            buf,
            self.ssrc,
            &items.types,
            &items.prefixes,
            &items.values,
            &items.bytes,
        ))
    }
}

/// An item to write.
#[derive(Clone, Debug)]
#[must_use = "a builder does nothing until it is added to a chunk or written"]
pub struct SdesItemBuilder<'a> {
    type_: u8,
    prefix: Cow<'a, [u8]>,
    value: Cow<'a, [u8]>,
}

impl<'a> SdesItemBuilder<'a> {
    /// The prefix of a PRIV item. Another item is written without it.
    pub fn prefix(mut self, prefix: impl Into<Cow<'a, [u8]>>) -> Self {
        self.prefix = prefix.into();
        self
    }

    /// The size of the lone item, or why it cannot be written.
    pub fn calculate_size(&self) -> Result<usize, RtcpWriteError> {
        size(ffi::rtcp_item_size(self.type_, &self.prefix, &self.value))
    }

    /// Writes the lone item at the start of the buffer and gives its size.
    ///
    /// ```
    /// use bokyjave::SdesItem;
    ///
    /// let mut buf = [0; 7];
    /// let item = SdesItem::builder(SdesItem::PRIV, "abc").prefix(&b"p"[..]);
    /// assert_eq!(item.write_into(&mut buf), Ok(7));
    /// assert_eq!(buf, *b"\x08\x05\x01pabc");
    /// ```
    pub fn write_into(&self, buf: &mut [u8]) -> Result<usize, RtcpWriteError> {
        size(ffi::rtcp_item_write(
            buf,
            self.type_,
            &self.prefix,
            &self.value,
        ))
    }

    /// The same item with copies of what it borrows.
    pub fn into_owned(self) -> SdesItemBuilder<'static> {
        SdesItemBuilder {
            type_: self.type_,
            prefix: self.prefix.into_owned().into(),
            value: self.value.into_owned().into(),
        }
    }
}

#[cfg(test)]
mod tests {
    use super::*;
    use crate::ffi::{
        rtcp_chunk_walk_open, rtcp_chunk_walk_step, rtcp_item_walk_open, rtcp_sdes_items,
    };

    const PACKETS: [&[u8]; 5] = [
        b"\x80\xCA\x00\x00",
        b"\xA0\xCA\x00\x01\x00\x00\x00\x04",
        b"\x81\xCA\x00\x03\x11\x22\x33\x44\x01\x03a@b\x00\x00\x00",
        b"\x81\xCA\x00\x03\x11\x22\x33\x44\x08\x04\x02abc\x00\x00",
        b"\xA2\xCA\x00\x06\x00\x00\x00\x01\x01\x01a\x00\x00\x00\x00\x02\x00\x00\x00\x00\x00\x00\x00\x00\x00\x00\x00\x08",
    ];

    #[test]
    fn all_items_at_once_are_those_of_the_iterators() {
        for packet in PACKETS {
            let sdes = Sdes::parse(packet).expect("an SDES packet");
            let mut rows = [0; 64];
            let written = rtcp_sdes_items(packet, &mut rows).done().expect("rows");
            let mut rows = rows[..written.size as usize].chunks(5);
            for chunk in sdes.chunks() {
                for item in chunk.items() {
                    let row = rows.next().expect("a row");
                    let value = row[2] as usize;
                    let prefix = &packet[value - row[3] as usize..value];
                    assert_eq!(row[..2], [chunk.ssrc(), item.type_().into()]);
                    assert_eq!(&packet[value..][..row[4] as usize], item.value());
                    assert_eq!(prefix, item.priv_prefix().unwrap_or_default());
                }
                let end = rows.next().expect("the row that ends a chunk");
                assert_eq!(end, [chunk.ssrc(), 0, end[2], 0, 0]);
                assert_eq!(packet[end[2] as usize], 0);
            }
            assert_eq!(rows.next(), None);
        }
    }

    #[test]
    fn a_lookup_finds_what_the_iterator_finds() {
        for packet in PACKETS {
            let sdes = Sdes::parse(packet).expect("an SDES packet");
            let ssrcs = [2, 0x11223344, 1, 0, 0x11223344, 4, 1];
            let mut answers = [LookupAnswer::NONE; 7];
            let visits = sdes.lookup(&ssrcs, &mut answers).expect("a lookup");
            assert!(visits <= sdes.chunks().len());
            for (ssrc, answer) in ssrcs.into_iter().zip(answers) {
                let is_its = |chunk: SdesChunk| chunk.ssrc() == ssrc && chunk.cname().is_some();
                let found = sdes.chunks().position(is_its);
                assert_eq!(answer.chunk().map(usize::from), found);
            }
        }
    }

    #[test]
    fn answers_are_told_apart_and_shown() {
        assert_eq!(LookupAnswer::default(), LookupAnswer::NONE);
        assert_eq!(LookupAnswer::NONE.chunk(), None);
        for index in 0..=30 {
            assert_eq!(LookupAnswer(index).chunk(), Some(index));
        }
        assert_eq!(format!("{:?}", LookupAnswer::NONE), "LookupAnswer(None)");
        assert_eq!(format!("{:?}", LookupAnswer(7)), "LookupAnswer(Some(7))");
    }

    #[test]
    fn chunks_and_items_are_those_of_the_walks() {
        for packet in PACKETS {
            let sdes = Sdes::parse(packet).expect("an SDES packet");
            let mut walk = rtcp_chunk_walk_open(packet).done().expect("a walk");
            assert_eq!(sdes.chunks().len(), usize::from(sdes.n_chunks()));
            for chunk in sdes.chunks() {
                let step = rtcp_chunk_walk_step(packet, walk.at, walk.end);
                let step = step.done().expect("a chunk");
                assert_eq!(chunk.data, part(packet, walk.at, step.length));
                assert_eq!((chunk.ssrc.into(), chunk.cname), (step.ssrc, step.cname));
                (walk.at, walk.end) = (step.at, step.end);
                let opened = rtcp_item_walk_open(chunk.data).done().expect("a walk");
                assert_eq!(chunk.items().at, opened.at);
            }
            assert_eq!(rtcp_chunk_walk_step(packet, walk.at, walk.end).number, 25);
        }
    }
}
