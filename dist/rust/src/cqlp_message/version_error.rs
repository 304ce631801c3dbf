// Written by dist/erase from crates/cqlp_message/src/version_error.rt.
//! What a server answers to a request of another version of the protocol.

use crate::kit_std::prelude::{KitNumber, format};
use crate::cqlp_message::frame::Frame;
use crate::cqlp_message::message::Message;
use crate::cqlp_message::response::ErrorExtra;
use crate::kit_std::alloc::{AllocError};

/// The code of a protocol error. Section 9 of `native_protocol_v4.spec`.
const PROTOCOL_ERROR: i32 = 0x000A;

impl Frame {
    /// The answer to a request whose header `Header::read` refuses for its version: an ERROR of version 4 by which drivers
    /// negotiate. It has the code 000A, and its text names the version of the request and those that are supported.
    ///
    /// Its stream id is the request's: the third byte of a header of version 1 or 2, which has eight bytes, and the third and
    /// the fourth of any other. The frame has a spelling, so it can be encoded.
    ///
    /// # Errors
    ///
    /// Memory that is refused: the text of the message takes some.
    pub fn version_error(header: &[u8; 9]) -> Result<Frame, AllocError> {
        let version = header[0] & 0x7F;
        let message = format!(
            "Invalid or unsupported protocol version ({version}); the lowest supported version is 4 and the greatest is 4"
        )?;
        let error = Message::Error {
            code: PROTOCOL_ERROR,
            message,
            extra: ErrorExtra::Plain,
        };
        Ok(Frame::plain(stream_under(version, header), error))
    }
}

/// The stream id of a header of this version.
fn stream_under(version: u8, header: &[u8; 9]) -> i16 {
    match version {
        1 | 2 => i16::from(header[2].kit_other_sign()),
        _ => i16::from_be_bytes([header[2], header[3]]),
    }
}
