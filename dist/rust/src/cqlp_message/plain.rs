// Written by dist/erase from crates/cqlp_message/src/plain.rt.
//! Frames with nothing before their message, and the flags of those that have something there.

use crate::cqlp_message::frame::Frame;
use crate::cqlp_message::message::Message;

impl Frame {
    /// The frame of a message with no flags, and with no tracing id, warnings or custom payload before it.
    #[must_use]
    pub fn plain(stream: i16, message: Message) -> Frame {
        Frame {
            flags: 0,
            stream,
            tracing: None,
            warnings: None,
            payload: None,
            message,
        }
    }

    /// The flags that announce the parts that are there: 02 a tracing id, 04 a custom payload, 08 warnings. Section 2.2 of
    /// `native_protocol_v4.spec`.
    ///
    /// With these flags the parts before a message are those that are announced: if [`Frame::unfit`] then says
    /// [`Unfit::Parts`](crate::cqlp_message::Unfit::Parts), something in the message disagrees. A request that asks for tracing has 02
    /// beside them.
    #[must_use]
    pub fn derived_flags(&self) -> u8 {
        flag(self.tracing.is_some(), 0x02)
            | flag(self.payload.is_some(), 0x04)
            | flag(self.warnings.is_some(), 0x08)
    }
}

/// This flag, where its part is there.
fn flag(there: bool, bit: u8) -> u8 {
    if there { bit } else { 0 }
}
