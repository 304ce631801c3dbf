// Written by dist/erase from crates/cqlp_capture_prepared/src/statement_id.rt.
//! The ids of statements.

/// The id that a PREPARED response gives to a statement, at most [`StatementId::MOST`] bytes of it: a \[short bytes\], section 4.2.5.4 of
/// `native_protocol_v4.spec`.
pub struct StatementId {
    bytes: [u8; 64],
    len: usize,
}

impl StatementId {
    /// How many bytes an id has at most.
    pub const MOST: usize = 64;

    /// The id of these bytes. `None` where they are more than [`StatementId::MOST`].
    pub fn new(id: &[u8]) -> Option<Self> {
        if id.len() > Self::MOST {
            return None;
        }
        let mut bytes = [0; 64];
        bytes[..id.len()].copy_from_slice(id);
        Some(StatementId {
            bytes,
            len: id.len(),
        })
    }

    pub fn as_slice(&self) -> &[u8] {
        &self.bytes[..self.len]
    }
}

impl PartialEq for StatementId {
    fn eq(&self, other: &Self) -> bool {
        self.as_slice() == other.as_slice()
    }
}

impl Eq for StatementId {
}
