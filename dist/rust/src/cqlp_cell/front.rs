// Written by dist/erase from crates/cqlp_cell/src/front.rt.
//! Scalars that lie whole at the front of the input.

use crate::cqlp_kind::content::{read_array, scalar};
use crate::cqlp_kind::{Kind, Scalar};
use crate::cqlp_note::Asked;

/// A scalar, and how many bytes it takes with its length.
#[derive(Clone, Copy, Debug, PartialEq, Eq)]
pub struct FrontScalar<'a> {
    pub used: usize,
    pub scalar: Scalar<'a>,
}

/// The value of this kind at the front of the input, in a container with room for this many bytes, where it is a scalar
/// of its type that a `CellReader` would hand out whole, lenient or not, and all its bytes are there. Section 6 of
/// `native_protocol_v4.spec`.
#[inline(always)]
pub fn front_scalar<'a>(
    limits: &Asked,
    kind: Kind,
    room: u64,
    input: &'a [u8],
) -> Option<FrontScalar<'a>> {
    if input.len() < 4 {
        return None;
    }
    let len = u32::from_be_bytes(read_array(input));
    if len == 0 || len > i32::MAX as u32 || len > limits.cell || u64::from(len) + 4 > room {
        return None;
    }
    let used = 4 + len as usize;
    if input.len() < used {
        return None;
    }
    let content = &input[4..used];
    if !kind.is_scalar() {
        return None;
    }
    match scalar(kind, content) {
        Ok(scalar) => Some(FrontScalar { used, scalar }),
        Err(_) => None,
    }
}
