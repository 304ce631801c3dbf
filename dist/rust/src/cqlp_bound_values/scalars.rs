// Written by dist/erase from crates/cqlp_bound_values/src/scalars.rt.
//! The scalar that is written of a value's bytes.

use crate::cqlp_bound_values::field::text_front;
use crate::cqlp_kind::{Kind, Scalar, scalar};
use crate::cqlp_note::Reason;

/// The scalar of these bytes, of all of a value or of its front.
pub(crate) fn shown_scalar(kind: Kind, bytes: &[u8], is_whole: bool) -> Scalar<'_> {
    if is_whole {
        whole_scalar(kind, bytes)
    } else {
        front_scalar(kind, bytes)
    }
}

/// The scalar of this kind that these bytes spell, and else the bytes.
fn whole_scalar(kind: Kind, bytes: &[u8]) -> Scalar<'_> {
    if kind.is_scalar() {
        scalar_or_raw(scalar(kind, bytes), bytes)
    } else {
        Scalar::Raw(bytes)
    }
}

fn scalar_or_raw<'a>(read: Result<Scalar<'a>, Reason>, bytes: &'a [u8]) -> Scalar<'a> {
    match read {
        Ok(scalar) => scalar,
        Err(_) => Scalar::Raw(bytes),
    }
}

/// Of the front of a text as much as is UTF-8, and of any other value the bytes.
fn front_scalar(kind: Kind, bytes: &[u8]) -> Scalar<'_> {
    match kind {
        Kind::Ascii | Kind::Varchar => Scalar::Varchar(text_front(bytes)),
        _ => Scalar::Raw(bytes),
    }
}
