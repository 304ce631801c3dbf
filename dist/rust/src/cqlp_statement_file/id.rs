// Written by dist/erase from crates/cqlp_statement_file/src/id.rt.
//! Ids of statements as cqlsh writes them.

use crate::kit_host::prelude::{Vec};
use crate::hex::FromHexError;
use crate::kit_std::alloc::{AllocError};

/// How many digits an id has at most: two for each byte.
const MOST_DIGITS: usize = 128;

/// The bytes of an id, of which each is two hexadecimal digits, after 0x or nothing: 1 to 64 of them.
pub fn id_of(text: &str) -> Result<Option<Vec<u8>>, AllocError> {
    let digits = digits_of(text.as_bytes());
    if !is_id(digits) {
        return Ok(None);
    }
    match crate::hex::decode(digits) {
        Ok(id) => Ok(Some(id)),
        Err(FromHexError::OutOfMemory) => Err(AllocError),
        Err(_) => Ok(None),
    }
}

/// Whether there are as many digits as an id may have.
fn is_id(digits: &[u8]) -> bool {
    !digits.is_empty() && digits.len() <= MOST_DIGITS
}

/// What is behind 0x, where that is before it.
fn digits_of(text: &[u8]) -> &[u8] {
    match text {
        [b'0', b'x', digits @ ..] => digits,
        _ => text,
    }
}
