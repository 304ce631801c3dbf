// Written by dist/erase from crates/cqlp_observer/src/header_front.rt.
//! The first bytes of a frame, out of pieces.

use crate::cqlp_note::Header;

/// At most as many bytes as a header has.
pub(crate) struct HeaderFront {
    bytes: [u8; 9],
    len: u8,
}

impl HeaderFront {
    #[inline(always)]
    pub(crate) fn new() -> Self {
        HeaderFront {
            bytes: [0; 9],
            len: 0,
        }
    }

    #[inline(always)]
    pub(crate) fn len(&self) -> usize {
        self.len.into()
    }

    /// These bytes, and as many of the input as there is room for.
    #[inline(always)]
    pub(crate) fn with(&self, input: &[u8]) -> Self {
        let old = usize::from(self.len);
        let moved = input.len().min(9 - old);
        let len = old + moved;
        let mut bytes = self.bytes;
        bytes[old..len].copy_from_slice(&input[..moved]);
        HeaderFront {
            bytes,
            len: len as u8,
        }
    }

    /// The header that the bytes are, in this direction, if they are nine.
    #[inline(always)]
    pub(crate) fn head(&self, responses: bool) -> Option<Header> {
        if self.len < 9 {
            return None;
        }
        read_head(&self.bytes, responses)
    }
}

/// The header that nine bytes are in this direction. Its frame may be compressed.
#[inline(always)]
pub(crate) fn read_head(bytes: &[u8; 9], responses: bool) -> Option<Header> {
    let flags = bytes[1];
    let mut plain = *bytes;
    plain[1] = flags & 0xFE;
    match Header::read(&plain, 0) {
        Ok(header) if header.response == responses => Some(Header { flags, ..header }),
        _ => None,
    }
}

/// The first nine bytes.
#[inline(always)]
pub(crate) fn first_nine(bytes: &[u8]) -> &[u8; 9] {
    bytes.first_chunk().unwrap()
}
