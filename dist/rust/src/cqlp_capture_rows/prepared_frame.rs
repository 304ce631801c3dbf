// Written by dist/erase from crates/cqlp_capture_rows/src/prepared_frame.rt.
//! A RESULT on another connection, as far as it may be a PREPARED.

use crate::kit_host::prelude::{KitVec, Vec};
use crate::cqlp_note::Header;
use crate::cqlp_observer_facts::FactsReader;
use crate::kit_std::alloc::{AllocError};

/// The kind of a result that is a PREPARED (section 4.2.5 of `native_protocol_v4.spec`).
const PREPARED: u32 = 4;

/// A RESULT whose kind is that of a PREPARED, or has not come whole, with its bytes.
pub(crate) struct PreparedFrame {
    head: [u8; 9],
    /// Reads the kind, behind what the header's flags announce.
    reader: FactsReader,
    /// The header and what came of the body; nothing, before some of the body came.
    bytes: Vec<u8>,
}

impl PreparedFrame {
    /// Nothing came but its header. Takes no memory.
    pub(crate) fn new(header: &Header) -> Self {
        PreparedFrame {
            head: header.write(),
            reader: FactsReader::new(header),
            bytes: Vec::new(),
        }
    }

    /// The frame with more bytes of its body; none, where they say that it is no PREPARED. Asks for memory only where it is kept.
    pub(crate) fn with(self, bytes: &[u8]) -> Result<Option<Self>, AllocError> {
        let mut frame = self;
        let _ = frame.reader.read(bytes);
        if !may_be_prepared(frame.reader.facts().result) {
            return Ok(None);
        }
        frame.kit_push(bytes)?;
        Ok(Some(frame))
    }

    fn kit_push(&mut self, bytes: &[u8]) -> Result<(), AllocError> {
        if self.bytes.is_empty() {
            self.bytes.kit_extend_from_slice(&self.head)?;
        }
        self.bytes.kit_extend_from_slice(bytes)
    }

    /// Its bytes.
    pub(crate) fn bytes(&self) -> &[u8] {
        &self.bytes
    }
}

/// Whether a RESULT is a PREPARED, or its kind has not come.
fn may_be_prepared(kind: Option<u32>) -> bool {
    match kind {
        Some(kind) => kind == PREPARED,
        None => true,
    }
}
