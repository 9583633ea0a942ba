//! What compound.rs names of the files that are not at hand: feedback and XR
//! packets. No input has one; each is as large as the crate's own, a slice.

use rtcp_types::prelude::*;
use rtcp_types::utils::parser::check_packet;
use rtcp_types::{RtcpParseError, RtcpWriteError};

#[derive(Clone, Debug)]
pub struct Packet<'a, const TYPE: u8> {
    data: &'a [u8],
}

pub type TransportFeedback<'a> = Packet<'a, 205>;
pub type PayloadFeedback<'a> = Packet<'a, 206>;
pub type Xr<'a> = Packet<'a, 207>;

impl<const TYPE: u8> RtcpPacket for Packet<'_, TYPE> {
    const MIN_PACKET_LEN: usize = 8;
    const PACKET_TYPE: u8 = TYPE;
}

impl<'a, const TYPE: u8> RtcpPacketParser<'a> for Packet<'a, TYPE> {
    fn parse(data: &'a [u8]) -> Result<Self, RtcpParseError> {
        check_packet::<Self>(data)?;
        Ok(Self { data })
    }

    fn header_data(&self) -> [u8; 4] {
        [self.data[0], self.data[1], self.data[2], self.data[3]]
    }
}

#[derive(Debug)]
pub struct Builder<'a, const TYPE: u8> {
    data: &'a [u8],
}

impl<const TYPE: u8> RtcpPacketWriter for Builder<'_, TYPE> {
    fn calculate_size(&self) -> Result<usize, RtcpWriteError> {
        Ok(self.data.len())
    }

    fn write_into_unchecked(&self, buf: &mut [u8]) -> usize {
        buf[..self.data.len()].copy_from_slice(self.data);
        self.data.len()
    }

    fn get_padding(&self) -> Option<u8> {
        None
    }
}

pub mod feedback {
    pub use super::{PayloadFeedback, TransportFeedback};
    pub type TransportFeedbackBuilder<'a> = super::Builder<'a, 205>;
    pub type PayloadFeedbackBuilder<'a> = super::Builder<'a, 206>;
}

pub mod xr {
    pub use super::Xr;
    pub type XrBuilder = super::Builder<'static, 207>;
}
