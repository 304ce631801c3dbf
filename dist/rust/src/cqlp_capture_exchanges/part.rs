// Written by dist/erase from crates/cqlp_capture_exchanges/src/part.rt.
//! Parts of the texts of statements.

/// Whether a text has a part.
pub(crate) fn is_part(part: &[u8], text: &[u8]) -> bool {
    for at in 0..text.len() {
        if is_front_at(part, text, at) {
            return true;
        }
    }
    part.is_empty()
}

/// Whether a text goes on with a part from a place on.
fn is_front_at(part: &[u8], text: &[u8], at: usize) -> bool {
    text[at..].starts_with(part)
}

/// How many bytes of a part count at most.
const ROOM: usize = 256;

/// A text that statements are to have, as far as its first 256 bytes: those of no statement are longer.
#[derive(Clone, Copy)]
pub struct StatementPart {
    /// These bytes, and after them zeros.
    bytes: [u8; ROOM],
    length: usize,
}

impl StatementPart {
    /// Those of this text.
    pub fn of(text: &str) -> StatementPart {
        let front = front_of(text.as_bytes());
        let length = front.len();
        let mut bytes = [0; ROOM];
        bytes[..length].copy_from_slice(front);
        StatementPart { bytes, length }
    }

    pub(crate) fn as_slice(&self) -> &[u8] {
        &self.bytes[..self.length.min(ROOM)]
    }
}

/// The first bytes of a text.
fn front_of(text: &[u8]) -> &[u8] {
    &text[..ROOM.min(text.len())]
}
