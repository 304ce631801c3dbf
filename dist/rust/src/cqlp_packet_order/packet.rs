// Written by dist/erase from crates/cqlp_packet_order/src/packet.rt.
//! A captured packet, lent or kept.

use crate::kit_host::prelude::{KitVec, Vec};
use crate::kit_std::alloc::{AllocError};

/// A captured packet.
#[derive(Clone, Copy)]
pub struct Packet<'a> {
    /// The number of its link type.
    pub link: u16,
    /// When it was captured, in nanoseconds since 1970-01-01 00:00:00 UTC; `None` where the file does not say.
    pub time: Option<u64>,
    /// How many bytes it had on the wire.
    pub original: u32,
    /// Those that were captured.
    pub bytes: &'a [u8],
}

/// A captured packet in memory of its own.
pub struct KeptPacket {
    pub link: u16,
    pub time: Option<u64>,
    pub original: u32,
    pub bytes: Vec<u8>,
}

impl KeptPacket {
    /// A copy of a packet, in this memory or more.
    pub(crate) fn copy_of(packet: &Packet<'_>, room: Vec<u8>) -> Result<Self, AllocError> {
        let mut bytes = room;
        bytes.clear();
        bytes.kit_extend_from_slice(packet.bytes)?;
        Ok(KeptPacket {
            link: packet.link,
            time: packet.time,
            original: packet.original,
            bytes,
        })
    }

    /// The packet, lent.
    pub fn as_packet(&self) -> Packet<'_> {
        Packet {
            link: self.link,
            time: self.time,
            original: self.original,
            bytes: self.bytes.as_slice(),
        }
    }
}
