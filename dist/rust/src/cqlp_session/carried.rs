// Written by dist/erase from crates/cqlp_session/src/carried.rt.
//! The values that are carried with open requests.

use crate::kit_std::prelude::{KitVec, Vec};
use crate::cqlp_session::slots;
use crate::kit_std::alloc::{AllocError};

/// A call that was refused, and the value that was to be carried.
#[derive(Clone, Copy, Debug, PartialEq, Eq)]
pub struct Refused<E, T> {
    /// Why it was refused.
    pub why: E,
    /// The value, as it was handed in.
    pub carried: T,
}

/// This many places for values, all empty, in memory for just these.
pub(crate) fn empty<T>(
    len: usize,
) -> Result<Vec<Option<T>>, AllocError> {
    let mut carried = Vec::kit_with_capacity(len)?;
    for _ in 0..len {
        carried.push_reserved(None);
    }
    Ok(carried)
}

/// Puts a value under an id.
pub(crate) fn keep<T>(carried: &mut [Option<T>], id: i16, value: T) {
    match slots::index_of(id) {
        Some(i) if i < carried.len() => carried[i] = Some(value),
        _ => {}
    }
}

/// Takes the value under an id, if one is there.
pub(crate) fn take<T>(carried: &mut [Option<T>], id: i16) -> Option<T> {
    match slots::index_of(id) {
        Some(i) if i < carried.len() => carried[i].take(),
        _ => None,
    }
}

/// The value under an id, if one is there.
pub(crate) fn get<T>(carried: &[Option<T>], id: i16) -> Option<&T> {
    match slots::index_of(id) {
        Some(i) if i < carried.len() => carried[i].as_ref(),
        _ => None,
    }
}

/// The value in a place, where one is, to write.
pub(crate) fn value_in<T>(place: &mut Option<T>) -> &mut T {
    match place {
        Some(value) => value,
        None => unreachable!(),
    }
}
