//! The sentences of RFC 3550 that refused datagrams break.

/// A sentence, and the section that it stands in.
#[derive(Debug)]
pub struct Rule {
    pub section: &'static str,
    pub sentence: &'static str,
}

pub const VERSION: Rule = Rule {
    section: "6.4.1",
    sentence: "The version defined by this specification is two (2).",
};

pub const LENGTH: Rule = Rule {
    section: "6.4.1",
    sentence: "The length of this RTCP packet in 32-bit words minus one, including the header and \
               any padding.",
};

pub const BLOCKS: Rule = Rule {
    section: "6.4.1",
    sentence: "The number of reception report blocks contained in this packet.",
};

pub const PADDING: Rule = Rule {
    section: "6.4.1",
    sentence: "The last octet of the padding is a count of how many padding octets should be \
               ignored, including itself (it will be a multiple of four).",
};

pub const LAST_PADDED: Rule = Rule {
    section: "6.4.1",
    sentence: "Thus, padding MUST only be added to the last individual packet, and if padding is \
               added to that packet, the padding bit MUST be set only on that packet.",
};

pub const FIRST: Rule = Rule {
    section: "6.1",
    sentence: "The first RTCP packet in the compound packet MUST always be a report packet to \
               facilitate header validation as described in Appendix A.2.",
};

pub const CNAME: Rule = Rule {
    section: "6.1",
    sentence: "An SDES packet containing a CNAME item MUST be included in each compound RTCP \
               packet, except as noted in Section 9.1.",
};

pub const CHUNKS: Rule = Rule {
    section: "6.5",
    sentence: "The number of SSRC/CSRC chunks contained in this SDES packet.",
};

pub const CHUNK_END: Rule = Rule {
    section: "6.5",
    sentence:
        "The list of items in each chunk MUST be terminated by one or more null octets, the \
               first of which is interpreted as an item type of zero to denote the end of the list.",
};

pub const FILL: Rule = Rule {
    section: "6.5",
    sentence: "No length octet follows the null item type octet, but additional null octets MUST \
               be included if needed to pad until the next 32-bit boundary.",
};

pub const ITEM: Rule = Rule {
    section: "6.5",
    sentence:
        "Each item consists of an 8-bit type field, an 8-bit octet count describing the \
               length of the text (thus, not including this two-octet header), and the text itself.",
};

pub const PREFIX: Rule = Rule {
    section: "6.5.8",
    sentence:
        "The item contains a prefix consisting of a length-string pair, followed by the \
               value string filling the remainder of the item and carrying the desired information.",
};

pub const SOURCES: Rule = Rule {
    section: "6.6",
    sentence: "The number of SSRC/CSRC identifiers included in this BYE packet.",
};

pub const REASON: Rule = Rule {
    section: "6.6",
    sentence: "Optionally, the BYE packet MAY include an 8-bit octet count followed by that many \
               octets of text indicating the reason for leaving",
};
