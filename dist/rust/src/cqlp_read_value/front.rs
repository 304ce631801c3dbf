// Written by dist/erase from crates/cqlp_read_value/src/front.rt.
//! What is at the front of the bytes of a container.

use crate::cqlp_read_value::error::ReadError;
use crate::cqlp_kind::content::read_array;
use crate::cqlp_note::{Reason, Refusal};
use crate::cqlp_value::Value;

/// A value, and how many bytes it has with its length.
pub(crate) struct Front {
    pub value: Value,
    pub used: usize,
}

/// The content of the \[bytes\] at the front of those left in a container, which begin at this offset; None where it is null.
pub(crate) fn front_content(bytes: &[u8], at: usize) -> Result<Option<&[u8]>, ReadError> {
    if bytes.len() < 4 {
        return Err(refused(at, Reason::Overrun));
    }
    let len = front_number(bytes);
    if len > i32::MAX as u32 {
        return Ok(None);
    }
    if bytes.len() - 4 < len as usize {
        return Err(refused(at, Reason::Overrun));
    }
    Ok(Some(&bytes[4..4 + len as usize]))
}

/// The count at the front of the content of a list, a set or a map, whose value begins at this offset.
pub(crate) fn front_count(content: &[u8], at: usize) -> Result<u32, ReadError> {
    if content.len() < 4 {
        return Err(refused(at + 4, Reason::Overrun));
    }
    let count = front_number(content);
    if count > i32::MAX as u32 {
        return Err(refused(at + 4, Reason::BadCount));
    }
    Ok(count)
}

/// The number that the first four bytes are.
#[inline(always)]
pub(crate) fn front_number(bytes: &[u8]) -> u32 {
    u32::from_be_bytes(read_array(bytes))
}

/// The bytes after the first, this many.
pub(crate) fn rest(bytes: &[u8], used: usize) -> &[u8] {
    &bytes[used..]
}

/// Bytes that are refused at this offset.
pub(crate) fn refused(at: usize, why: Reason) -> ReadError {
    ReadError::Refused(Refusal { at: at as u64, why })
}
