// Written by dist/erase from crates/cqlp_session/src/slots.rt.
//! What is under each stream id.

use crate::kit_std::prelude::{KitVec, Vec};
use crate::kit_std::alloc::{AllocError};

/// The most stream ids that a connection has. Section 2.3 of `native_protocol_v4.spec`.
pub(crate) const MOST: u16 = 32_768;

/// The place of a stream id, which is negative for none.
pub(crate) fn index_of(id: i16) -> Option<usize> {
    if id < 0 { None } else { Some(id as usize) }
}

/// Whether this is the id of one of these slots.
pub(crate) fn has<T>(slots: &[Option<T>], id: i16) -> bool {
    match index_of(id) {
        Some(i) => i < slots.len(),
        None => false,
    }
}

/// What is under this id.
pub(crate) fn under<T: Copy>(slots: &[Option<T>], id: i16) -> Option<T> {
    match index_of(id) {
        Some(i) if i < slots.len() => slots[i],
        _ => None,
    }
}

/// Puts this under an id.
pub(crate) fn put<T: Copy>(slots: &mut [Option<T>], id: i16, what: Option<T>) {
    match index_of(id) {
        Some(i) if i < slots.len() => slots[i] = what,
        _ => {}
    }
}

/// This many slots, all empty, in memory for just these.
pub(crate) fn empty<T: Copy>(
    len: usize,
) -> Result<Vec<Option<T>>, AllocError> {
    let mut slots = Vec::kit_with_capacity(len)?;
    for _ in 0..len {
        slots.push_reserved(None);
    }
    Ok(slots)
}
