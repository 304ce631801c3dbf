// Written by dist/erase from crates/cqlp_capture_prepared/src/execute.rt.
//! An EXECUTE whose id has not come whole.

use crate::cqlp_capture_prepared::statement_id::StatementId;
use crate::cqlp_note::Header;
use crate::cqlp_observer_facts::FactsReader;

/// How many bytes of the message proper are kept: the length of an id, and the longest id that is known.
const ROOM: usize = 2 + StatementId::MOST;

/// The first bytes of a message.
pub(crate) struct IdFront {
    bytes: [u8; 66],
    len: usize,
}

impl IdFront {
    pub(crate) fn new() -> Self {
        IdFront {
            bytes: [0; 66],
            len: 0,
        }
    }

    /// Keeps as many of these bytes behind the others as there is room for.
    pub(crate) fn add(&mut self, input: &[u8]) {
        let moved = input.len().min(ROOM - self.len);
        let len = self.len + moved;
        self.bytes[self.len..len].copy_from_slice(&input[..moved]);
        self.len = len;
    }

    /// The \[short bytes\] that they begin with, if these came whole. Section 3 of `native_protocol_v4.spec`.
    pub(crate) fn id(&self) -> Option<&[u8]> {
        let (len, content) = self.bytes[..self.len].split_first_chunk::<2>()?;
        content.get(..u16::from_be_bytes(*len) as usize)
    }
}

/// An EXECUTE, as far as its message came.
pub(crate) struct Execute {
    /// The stream id.
    pub(crate) stream: i16,
    /// Reads what the header's flags announce before the message proper: a custom payload, section 2.2 of `native_protocol_v4.spec`.
    reader: FactsReader,
    /// The first bytes of the message proper.
    front: IdFront,
}

impl Execute {
    /// Nothing came but its header.
    pub(crate) fn new(header: &Header) -> Self {
        Execute {
            stream: header.stream,
            reader: FactsReader::new(header),
            front: IdFront::new(),
        }
    }

    /// Takes bytes of its body.
    pub(crate) fn read(&mut self, bytes: &[u8]) {
        let before = self.reader.read(bytes);
        self.front.add(&bytes[before..]);
    }

    /// The id that it names, if that came whole, and has at most 64 bytes.
    pub(crate) fn id(&self) -> Option<&[u8]> {
        self.front.id()
    }
}
