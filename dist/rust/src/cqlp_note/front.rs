// Written by dist/erase from crates/cqlp_note/src/front.rt.
//! The first bytes of a field, out of pieces.

/// At most 24 bytes, more than go before any content.
pub(crate) struct FieldFront {
    bytes: [u8; 24],
    len: usize,
}

impl FieldFront {
    pub fn new() -> Self {
        FieldFront {
            bytes: [0; 24],
            len: 0,
        }
    }

    pub fn as_slice(&self) -> &[u8] {
        &self.bytes[..self.len]
    }

    pub fn len(&self) -> usize {
        self.len
    }

    pub fn is_empty(&self) -> bool {
        self.len == 0
    }

    /// These bytes, and as many of the input as there is room for.
    pub fn with(&self, input: &[u8]) -> Self {
        let moved = input.len().min(24 - self.len);
        let len = self.len + moved;
        let mut bytes = self.bytes;
        bytes[self.len..len].copy_from_slice(&input[..moved]);
        FieldFront { bytes, len }
    }
}
