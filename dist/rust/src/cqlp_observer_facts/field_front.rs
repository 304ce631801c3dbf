// Written by dist/erase from crates/cqlp_observer_facts/src/field_front.rt.
//! The first bytes of a field, out of pieces.

/// At most 15 bytes: a field that is longer is whole.
pub(crate) struct FieldFront {
    bytes: [u8; 16],
    len: usize,
}

impl FieldFront {
    #[inline(always)]
    pub(crate) fn new() -> Self {
        FieldFront {
            bytes: [0; 16],
            len: 0,
        }
    }

    /// No bytes.
    #[inline(always)]
    pub(crate) fn clear(&mut self) {
        self.len = 0;
    }

    /// The first so many of these bytes.
    #[inline(always)]
    pub(crate) fn of(bytes: [u8; 16], len: usize) -> Self {
        FieldFront { bytes, len }
    }

    #[inline(always)]
    pub(crate) fn is_empty(&self) -> bool {
        self.len == 0
    }

    /// These bytes and one more, and how many they are then.
    #[inline(always)]
    pub(crate) fn with(&self, byte: u8) -> ([u8; 16], usize) {
        let mut bytes = self.bytes;
        bytes[self.len] = byte;
        (bytes, self.len + 1)
    }
}
