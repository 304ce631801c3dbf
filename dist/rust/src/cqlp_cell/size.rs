// Written by dist/erase from crates/cqlp_cell/src/size.rt.
//! What the length of a value says.

use crate::cqlp_kind::Kind;
use crate::cqlp_kind::content::allows;
use crate::cqlp_note::{Asked, Reason};

/// What a value is by its length.
#[derive(Clone, Copy)]
pub(crate) enum Sized {
    Null,
    Empty,
    /// A scalar of this many bytes.
    Scalar(u32),
    /// A scalar of this many bytes that comes in parts.
    Parts(u32),
    /// A list, a set or a map of this many bytes.
    Counted(u32),
    /// A tuple or a user-defined type of this many bytes.
    Fields(u32),
    Refused(Reason),
}

/// What a value of this kind is by the four bytes of its length, in a container with room for this many bytes from
/// there on.
#[inline]
pub(crate) fn size_up(limits: &Asked, kind: Kind, room: u64, len: u32) -> Sized {
    if len > i32::MAX as u32 {
        Sized::Null
    } else if len == 0 {
        Sized::Empty
    } else if room < 4 + u64::from(len) {
        Sized::Refused(Reason::Overrun)
    } else {
        size_content(limits, kind, len)
    }
}

/// The same of a value that has bytes, and room for them.
#[inline]
fn size_content(limits: &Asked, kind: Kind, len: u32) -> Sized {
    match kind {
        Kind::List | Kind::Set | Kind::Map => Sized::Counted(len),
        Kind::Udt | Kind::Tuple => Sized::Fields(len),
        _ => size_scalar(limits, kind, len),
    }
}

/// The same of a scalar.
#[inline]
fn size_scalar(limits: &Asked, kind: Kind, len: u32) -> Sized {
    if !takes(limits.lenient, kind, len) {
        Sized::Refused(Reason::BadSize)
    } else if len <= limits.cell {
        Sized::Scalar(len)
    } else if limits.parts && is_opaque(kind) {
        Sized::Parts(len)
    } else {
        Sized::Refused(Reason::TooLong)
    }
}

/// Whether a content of this many bytes, which are not none, is read on: the type allows so many, or the caller is lenient.
#[inline]
fn takes(lenient: bool, kind: Kind, len: u32) -> bool {
    lenient || allows(kind, len as usize)
}

/// Whether a scalar of this kind comes in parts where it is long.
#[inline]
fn is_opaque(kind: Kind) -> bool {
    matches!(kind, Kind::Blob | Kind::Custom | Kind::Raw)
}
