// Written by dist/erase from crates/cqlp_note/src/header.rt.
//! Frame headers.

use crate::cqlp_note::opcode::Opcode;
use crate::cqlp_note::refusal::{Reason, Refusal};

/// The header of a frame. Section 2 of `native_protocol_v4.spec`.
#[derive(Clone, Copy, Debug, PartialEq, Eq)]
pub struct Header {
    /// Whether the frame is a response, by its first byte: 84, or 04 in a request.
    pub response: bool,
    /// 01 compression, 02 tracing, 04 custom payload, 08 warning; other bits are kept.
    pub flags: u8,
    /// The stream id, which is a request's and its response's; -1 in an EVENT.
    pub stream: i16,
    /// The kind of the message.
    pub opcode: Opcode,
    /// The bytes of the body, at most [`Header::LONGEST_BODY`].
    pub length: u32,
}

impl Header {
    /// The bytes of a body at most, 256 MB. Section 2.5 of `native_protocol_v4.spec`.
    pub const LONGEST_BODY: u32 = 268_435_456;

    /// Whether the header may be before a frame: the flag 01 is off, the opcode goes in this direction, and the
    /// body is no longer than [`Header::LONGEST_BODY`].
    #[must_use]
    pub fn lawful(&self) -> bool {
        !has(self.flags, 0x01)
            && self.opcode.is_response() == self.response
            && self.length <= Header::LONGEST_BODY
    }

    /// The header that nine bytes are, in a frame that begins at `at`, or the first fault of them in this order: the
    /// version (at +0), the flag 01 (+1), the opcode (+4), its direction (+4), the length (+5).
    pub(crate) fn read(bytes: &[u8; 9], at: u64) -> Result<Header, Refusal> {
        let [version, flags, _, _, number, _, _, _, _] = *bytes;
        if !is_version(version) {
            return fault(at, Reason::BadVersion);
        }
        if has(flags, 0x01) {
            return fault(at + 1, Reason::Compressed);
        }
        let response = version == 0x84;
        let Some(opcode) = Opcode::from_number(number) else {
            return fault(at + 4, Reason::BadOpcode);
        };
        if opcode.is_response() != response {
            return fault(at + 4, Reason::BadDirection);
        }
        let length = u32::from_be_bytes([bytes[5], bytes[6], bytes[7], bytes[8]]);
        if length > Header::LONGEST_BODY {
            return fault(at + 5, Reason::BadLength);
        }
        Ok(Header {
            response,
            flags,
            stream: i16::from_be_bytes([bytes[2], bytes[3]]),
            opcode,
            length,
        })
    }

    /// The nine bytes of the header, which `read` takes for this header again.
    #[must_use]
    pub(crate) fn write(&self) -> [u8; 9] {
        let [high, low] = self.stream.to_be_bytes();
        let [first, second, third, last] = self.length.to_be_bytes();
        [
            version(self.response),
            self.flags,
            high,
            low,
            self.opcode.number(),
            first,
            second,
            third,
            last,
        ]
    }
}

/// The refusal at this offset.
fn fault(at: u64, why: Reason) -> Result<Header, Refusal> {
    Err(Refusal { at, why })
}

/// Whether a header begins so.
fn is_version(version: u8) -> bool {
    version == 0x04 || version == 0x84
}

/// The first byte of a header in this direction.
fn version(response: bool) -> u8 {
    if response { 0x84 } else { 0x04 }
}

/// Whether some bit of these is set.
fn has(flags: u8, bits: u8) -> bool {
    flags & bits > 0
}
