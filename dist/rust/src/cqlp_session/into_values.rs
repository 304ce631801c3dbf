// Written by dist/erase from crates/cqlp_session/src/into_values.rt.
//! The values of requests that are still open when a connection ends.

use crate::kit_std::prelude::{Vec};
use core::iter::FusedIterator;

/// The values of the requests that were open, in the order of their stream ids, seen as the list of those that are left.
/// Of [`ClientOf::into_values`](crate::cqlp_session::ClientOf::into_values) and
/// [`ServerOf::into_values`](crate::cqlp_session::ServerOf::into_values).
pub struct IntoValues<T> {
    /// What is carried under the ids that are left, the last first.
    carried: Vec<Option<T>>,
}

impl<T> IntoValues<T> {
    /// The values that are carried under the ids from 0 on.
    pub(crate) fn new(mut carried: Vec<Option<T>>) -> IntoValues<T> {
        carried.reverse();
        IntoValues { carried }
    }
}

impl<T> Iterator for IntoValues<T> {
    type Item = T;

    fn next(&mut self) -> Option<T> {
        while let Some(value) = self.carried.pop() {
            if value.is_some() {
                return value;
            }
        }
        None
    }
}

impl<T> FusedIterator for IntoValues<T> {}
