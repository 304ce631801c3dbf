// Written by dist/erase from crates/cqlp_cell/src/content.rt.
//! As which kind a content is read.

use crate::cqlp_kind::Kind;
use crate::cqlp_kind::content::{accepts, allows};

/// The kind as which a content of a scalar type is read, whose length is taken: that of its type, where the type has it; else
/// that of a type which is not known, where the caller is lenient.
#[inline]
pub(crate) fn kind_read(lenient: bool, kind: Kind, bytes: &[u8]) -> Option<Kind> {
    if is_of(kind, bytes) {
        Some(kind)
    } else if lenient {
        Some(Kind::Raw)
    } else {
        None
    }
}

/// Whether a content is a scalar of this kind.
#[inline]
fn is_of(kind: Kind, bytes: &[u8]) -> bool {
    allows(kind, bytes.len()) && accepts(kind, bytes)
}
