// Written by dist/erase from crates/cqlp_session/src/body.rt.
//! What a header says of its frame's body.

use crate::cqlp_note::Header;

/// What a header says of its frame's body, which a core does not look at: lawful flags and a lawful length. Section 2 of
/// `native_protocol_v4.spec`.
#[derive(Clone, Copy, Debug)]
pub struct Body {
    flags: u8,
    length: u32,
}

impl Body {
    /// A body of this many bytes, whose header has these flags. None where the flag 01, compression, is set, or where there
    /// are more bytes than [`Header::LONGEST_BODY`].
    #[must_use]
    pub fn new(flags: u8, length: u32) -> Option<Body> {
        let compressed = flags & 0x01 > 0;
        if compressed || length > Header::LONGEST_BODY {
            return None;
        }
        Some(Body { flags, length })
    }

    /// The header's flags.
    #[must_use]
    pub fn flags(&self) -> u8 {
        self.flags
    }

    /// The bytes of the body.
    #[must_use]
    pub fn length(&self) -> u32 {
        self.length
    }
}
