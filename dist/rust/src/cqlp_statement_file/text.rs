// Written by dist/erase from crates/cqlp_statement_file/src/text.rt.
//! The text of a statement, as far as it is kept.

use crate::kit_host::prelude::{KitString, String};
use crate::kit_std::alloc::{AllocError};

/// How many bytes of a text are kept at most: as many as the first 256 bytes of a PREPARE have of its text.
const MOST: usize = 252;

/// The text of a statement, as far as it is kept.
pub struct StatementText {
    text: String,
    is_whole: bool,
}

impl StatementText {
    /// The first bytes of a text, as far as they are UTF-8.
    pub(crate) fn new(text: &str) -> Result<Self, AllocError> {
        let front = front_of(text);
        let is_whole = front.len() == text.len();
        let text = String::from_str(front)?;
        Ok(StatementText { text, is_whole })
    }

    /// What is kept.
    pub fn as_str(&self) -> &str {
        self.text.as_str()
    }

    /// Whether that is all of it.
    pub fn is_whole(&self) -> bool {
        self.is_whole
    }
}

/// The longest front of a text that is kept.
fn front_of(text: &str) -> &str {
    text_front(first_bytes(text.as_bytes(), MOST))
}

/// So many bytes at most.
fn first_bytes(text: &[u8], most: usize) -> &[u8] {
    &text[..text.len().min(most)]
}

/// The longest front of bytes that is UTF-8.
fn text_front(bytes: &[u8]) -> &str {
    match core::str::from_utf8(bytes) {
        Ok(text) => text,
        // SAFETY: the bytes up to there are UTF-8.
        Err(error) => unsafe { core::str::from_utf8_unchecked(&bytes[..error.valid_up_to()]) },
    }
}
