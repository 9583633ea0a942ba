use crate::ffi::Refusal;
use std::error::Error;
use std::fmt;

/// An error: its cases, each with a refusal number and the details that it has.
macro_rules! error {
    ($(#[$about:meta])* $name:ident { $(
        $(#[$case_about:meta])*
        $number:literal $case:ident
        $( ($only:ident: $only_width:ty) )?
        $( { $( $(#[$detail_about:meta])* $detail:ident: $width:ty, )+ } )?,
    )* }) => {
        $(#[$about])*
        #[derive(Clone, Copy, Debug, PartialEq, Eq)]
        #[non_exhaustive]
        pub enum $name {
            $(
                $(#[$case_about])*
                $case $( ($only_width) )? $( { $( $(#[$detail_about])* $detail: $width, )+ } )?,
            )*
            /// A refusal that this version of the crate does not name.
            Other {
                /// The refusal number.
                number: u64,
                /// The first detail.
                first: u64,
                /// The second detail.
                second: u64,
            },
        }

        impl $name {
            fn named(refusal: Refusal) -> Self {
                let Refusal { number, first, second } = refusal;
                let mut details = [first, second].into_iter();
                match number {
                    $(
                        $number => Self::$case
                            $( (first as $only_width) )?
                            $( { $( $detail: details.next().unwrap_or(0) as $width, )+ } )?,
                    )*
                    _ => Self::Other { number, first, second },
                }
            }

            fn refusal(&self) -> Refusal {
                match *self {
                    $(
                        Self::$case $( ($only) )? $( { $( $detail, )+ } )? => Refusal::of(
                            $number,
                            &[$( $only as u64 )? $( $( $detail as u64, )+ )?],
                        ),
                    )*
                    Self::Other { number, first, second } => Refusal { number, first, second },
                }
            }

            /// The refusal number.
            pub fn number(&self) -> u64 {
                self.refusal().number
            }

            /// The first detail, 0 where none is named.
            pub fn first(&self) -> u64 {
                self.refusal().first
            }

            /// The second detail, 0 where none is named.
            pub fn second(&self) -> u64 {
                self.refusal().second
            }
        }

        #[doc(hidden)]
        impl From<Refusal> for $name {
            /// The case of the number, where it has room for the details.
            #[cold]
            fn from(refusal: Refusal) -> Self {
                let named = Self::named(refusal);
                if named.refusal() == refusal {
                    return named;
                }
                Self::Other {
                    number: refusal.number,
                    first: refusal.first,
                    second: refusal.second,
                }
            }
        }

        impl fmt::Display for $name {
            fn fmt(&self, f: &mut fmt::Formatter<'_>) -> fmt::Result {
                self.refusal().explain(f)
            }
        }

        impl Error for $name {}
    };
}

error! {
    /// Why bytes are not read. Each case is one refusal number of the project's
    /// docs/REFUSALS.md.
    ///
    /// ```
    /// use bokyjave::{prelude::*, ReceiverReport, RtcpParseError};
    ///
    /// let error = ReceiverReport::parse(&[0x80, 201, 0, 0]).unwrap_err();
    /// assert_eq!(error, RtcpParseError::Truncated { expected: 8, actual: 4 });
    /// assert_eq!((error.number(), error.first(), error.second()), (2, 8, 4));
    /// assert_eq!(
    ///     error.to_string(),
    ///     "a packet, report, chunk, item or reason that says it is longer than the bytes \
    ///      (refusal 2: bytes needed 8, bytes there 4)"
    /// );
    /// ```
    RtcpParseError {
        /// 1: the version is not 2.
        1 UnsupportedVersion(detail: u8),
        /// 2: bytes are missing.
        2 Truncated {
            /// The bytes needed.
            expected: usize,
            /// The bytes there.
            actual: usize,
        },
        /// 3: there are bytes left over.
        3 TooLarge {
            /// The bytes stated.
            expected: usize,
            /// The bytes there.
            actual: usize,
        },
        /// 4: the padding count is 0, no multiple of 4, or more than the packet has.
        4 InvalidPadding,
        /// 5: the prefix of a PRIV item is longer than the item.
        5 SdesPrivPrefixTooLarge {
            /// The length of the prefix.
            len: usize,
            /// The bytes there for it.
            available: u8,
        },
        /// 6: the packet has another type than the one asked for.
        6 PacketTypeMismatch {
            /// The type of the packet.
            actual: u8,
            /// The type asked for.
            requested: u8,
        },
        /// 7: the datagram does not begin with a report, but with this type.
        7 FirstPacketNoReport(detail: u8),
        /// 8: no SDES chunk of the datagram has a CNAME.
        8 NoCname,
        /// 9: a packet before the datagram's last is padded.
        9 NonLastCompoundPacketPadding,
        /// 25: the index is past the last block or source.
        25 NothingLeft,
        /// 30: the item of this type is not PRIV, and has no prefix.
        30 NotPriv(detail: u8),
        /// 31: there are more SSRCs to look up than answers lent for them.
        31 AnswersTooShort,
    }
}

error! {
    /// Why nothing is written. Each case is one refusal number of the project's
    /// docs/REFUSALS.md. No byte of the buffer has changed.
    ///
    /// ```
    /// use bokyjave::{prelude::*, Bye, RtcpWriteError};
    ///
    /// let bye = Bye::builder().add_source(7).reason("done");
    /// let error = bye.write_into(&mut [0; 10]).unwrap_err();
    /// assert_eq!(error, RtcpWriteError::OutputTooSmall(16));
    /// assert_eq!((error.number(), error.first(), error.second()), (10, 16, 0));
    /// ```
    RtcpWriteError {
        /// 10: the buffer is shorter than this size.
        10 OutputTooSmall(detail: usize),
        /// 11: the padding is no multiple of 4.
        11 InvalidPadding {
            /// The padding asked for.
            padding: u8,
        },
        /// 12: the APP subtype does not fit 5 bits.
        12 AppSubtypeOutOfRange {
            /// The subtype.
            subtype: u8,
            /// The largest.
            max: u8,
        },
        /// 13: the APP name has more than 4 bytes, or is not ASCII.
        13 InvalidName,
        /// 14: APP data of this length are no full words.
        14 DataLen32bitMultiple(detail: usize),
        /// 15: there are too many BYE sources.
        15 TooManySources {
            /// The sources.
            count: usize,
            /// The most.
            max: u8,
        },
        /// 16: the BYE reason is too long.
        16 ReasonLenTooLarge {
            /// Its length.
            len: usize,
            /// The most.
            max: u8,
        },
        /// 17: the cumulative loss is below -8,388,608 or above 8,388,607.
        17 CumulativeLostTooLarge {
            /// The low 32 bits of the loss, so `value as i32` is the loss.
            value: u32,
            /// The most.
            max: u32,
        },
        /// 18: there are too many report blocks.
        18 TooManyReportBlocks {
            /// The blocks.
            count: usize,
            /// The most.
            max: u8,
        },
        /// 19: there are too many SDES chunks.
        19 TooManySdesChunks {
            /// The chunks.
            count: usize,
            /// The most.
            max: u8,
        },
        /// 20: the value of an SDES item is too long.
        20 SdesValueTooLarge {
            /// Its length.
            len: usize,
            /// The most.
            max: u8,
        },
        /// 21: the prefix of a PRIV item is too long.
        21 SdesPrivPrefixTooLarge {
            /// Its length.
            len: usize,
            /// The most.
            max: u8,
        },
        /// 22: the packet has over 262,144 bytes, or the lone chunk over 262,140.
        22 PacketTooLarge,
        /// 23: an SDES item has type 0.
        23 ItemTypeZero,
        /// 24: lent lists do not fit together. No builder of this crate lends such.
        24 ListsDisagree,
        /// 26: the datagram is closed.
        26 WriterClosed,
        /// 27: the first packet of the datagram is no report.
        27 FirstPacketNoReport,
        /// 28: the datagram has no CNAME.
        28 NoCname,
        /// 29: a padded packet is already in the datagram.
        29 AlreadyPadded,
    }
}

/// For each number from 1 on, what came in, and the names of its details.
const SENTENCES: [(&str, &[&str]); 31] = [
    ("a packet whose first two bits are not 2", &["version"]),
    (
        "a packet, report, chunk, item or reason that says it is longer than the bytes",
        &["bytes needed", "bytes there"],
    ),
    (
        "a packet with bytes after its stated length, or an SDES with bytes after its chunks",
        &["bytes stated", "bytes there"],
    ),
    (
        "the padding bit with a count of 0, no multiple of 4, or more than the packet has",
        &[],
    ),
    (
        "a PRIV item whose prefix is longer than the item",
        &["prefix length", "bytes there"],
    ),
    (
        "a packet of another type than the one asked for",
        &["type", "type wanted"],
    ),
    ("a datagram that does not begin with SR or RR", &["type"]),
    ("a datagram in which no SDES chunk has a CNAME", &[]),
    (
        "a datagram in which a packet before the last is padded",
        &[],
    ),
    (
        "a buffer that is too short for what is written",
        &["bytes needed"],
    ),
    (
        "a padding to write that is no multiple of 4 or above 252",
        &["padding"],
    ),
    (
        "an APP subtype that 5 bits cannot say",
        &["subtype", "most"],
    ),
    ("an APP name of more than 4 bytes, or not ASCII", &[]),
    ("APP data that are no full words", &["length"]),
    ("more BYE sources than 5 bits can say", &["count", "most"]),
    (
        "a BYE reason that one byte cannot measure",
        &["length", "most"],
    ),
    (
        "a loss that 24 signed bits cannot say",
        &["low 32 bits of the loss", "most"],
    ),
    ("more blocks than 5 bits can say", &["count", "most"]),
    ("more chunks than 5 bits can say", &["count", "most"]),
    (
        "an item's value that one byte cannot measure",
        &["length", "most"],
    ),
    ("a PRIV prefix that leaves no room", &["length", "most"]),
    (
        "a packet over 262,144 bytes, or a lone chunk over 262,140",
        &[],
    ),
    ("an item to write of type 0, which closes a chunk", &[]),
    (
        "lists of blocks, chunks or items whose lengths do not fit together",
        &[],
    ),
    ("a step after the last part, or an index past the last", &[]),
    ("a call on a datagram that is closed", &[]),
    ("a datagram to write that does not begin with SR or RR", &[]),
    ("a datagram to write without a CNAME", &[]),
    ("a packet after one that is padded", &[]),
    ("the prefix of an item that has none", &["type"]),
    (
        "a list of SSRCs that is longer than the buffer for its answers",
        &[],
    ),
];

impl Refusal {
    /// The refusal with a number and up to two details.
    fn of(number: u64, details: &[u64]) -> Self {
        let detail = |at| details.get(at).copied().unwrap_or(0);
        Refusal {
            number,
            first: detail(0),
            second: detail(1),
        }
    }

    fn explain(&self, f: &mut fmt::Formatter<'_>) -> fmt::Result {
        let Refusal {
            number,
            first,
            second,
        } = *self;
        let place = (number as usize).wrapping_sub(1);
        let Some((came_in, details)) = SENTENCES.get(place) else {
            return write!(f, "refusal {number} with details {first} and {second}");
        };
        write!(f, "{came_in} (refusal {number}")?;
        for (at, (name, detail)) in details.iter().zip([first, second]).enumerate() {
            write!(f, "{} {name} {detail}", if at == 0 { ":" } else { "," })?;
        }
        write!(f, ")")
    }
}

#[cfg(test)]
mod tests {
    use super::*;

    const PARSE: [u64; 12] = [1, 2, 3, 4, 5, 6, 7, 8, 9, 25, 30, 31];
    const LAST: u64 = SENTENCES.len() as u64;

    fn details(number: u64) -> usize {
        SENTENCES[number as usize - 1].1.len()
    }

    /// The refusal of a number with details that fit every case.
    fn small(number: u64) -> Refusal {
        let detail = |at, value| if details(number) > at { value } else { 0 };
        Refusal {
            number,
            first: detail(0, 201),
            second: detail(1, 31),
        }
    }

    fn text(refusal: Refusal) -> String {
        if PARSE.contains(&refusal.number) {
            RtcpParseError::from(refusal).to_string()
        } else {
            RtcpWriteError::from(refusal).to_string()
        }
    }

    #[test]
    fn every_number_has_a_case_that_keeps_its_details() {
        for number in 1..=LAST {
            let refusal = small(number);
            if PARSE.contains(&number) {
                let error = RtcpParseError::from(refusal);
                assert!(!matches!(error, RtcpParseError::Other { .. }), "{number}");
                assert_eq!(error.refusal(), refusal);
            } else {
                let error = RtcpWriteError::from(refusal);
                assert!(!matches!(error, RtcpWriteError::Other { .. }), "{number}");
                assert_eq!(error.refusal(), refusal);
            }
        }
    }

    #[test]
    fn details_without_room_and_numbers_without_a_case_are_kept() {
        for number in (0..=44).chain([u64::MAX]) {
            let refusal = Refusal {
                number,
                first: u64::MAX,
                second: u64::MAX - 1,
            };
            let (parse, write) = (RtcpParseError::from(refusal), RtcpWriteError::from(refusal));
            assert_eq!(parse.refusal(), refusal);
            assert_eq!(write.refusal(), refusal);
            assert_eq!(
                (parse.number(), parse.first(), parse.second()),
                (number, u64::MAX, u64::MAX - 1)
            );
            assert_eq!(
                (write.number(), write.first(), write.second()),
                (number, u64::MAX, u64::MAX - 1)
            );
        }
    }

    /// Each line of docs/REFUSALS.md says what the sentence of its number says.
    #[test]
    fn sentences_are_those_of_the_table() {
        let path = concat!(env!("CARGO_MANIFEST_DIR"), "/../docs/REFUSALS.md");
        let table = std::fs::read_to_string(path).expect("docs/REFUSALS.md");
        let mut seen = Vec::new();
        for line in table.lines() {
            let cells: Vec<&str> = line.split('|').map(str::trim).collect();
            let Some(number) = cells.get(1).and_then(|cell| cell.parse().ok()) else {
                continue;
            };
            if number > LAST {
                continue;
            }
            let refusal = small(number);
            let came_in = cells[4].split(';').next().expect("a first part");
            let mut want = format!("{came_in} (refusal {number}");
            let names: Vec<&str> = cells[3].split(", ").filter(|name| *name != "0").collect();
            for (at, (name, value)) in names
                .iter()
                .zip([refusal.first, refusal.second])
                .enumerate()
            {
                let name = if name.parse::<u64>().is_ok() {
                    "most"
                } else {
                    name
                };
                want += &format!("{} {name} {value}", if at == 0 { ":" } else { "," });
            }
            assert_eq!(text(refusal), want + ")");
            seen.push(number);
        }
        assert_eq!(seen, (1..=LAST).collect::<Vec<u64>>());
    }

    #[test]
    fn a_number_without_a_sentence_is_named() {
        for number in [0, LAST + 1, u64::MAX] {
            let refusal = Refusal {
                number,
                first: 1,
                second: 2,
            };
            assert_eq!(
                text(refusal),
                format!("refusal {number} with details 1 and 2")
            );
        }
    }
}
