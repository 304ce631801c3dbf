// Written by dist/erase from crates/cqlp_note/src/whole.rt.
//! Fields that lie whole at the front of the input.

use crate::cqlp_note::field::Notation;
use crate::cqlp_note::head::{ContentForm, Wanted, read_array as first, read_natural};
use crate::cqlp_note::partial::read_content_head;
use crate::cqlp_note::prim::{BoundValue, Primitive};

/// A field, and how many bytes it takes.
#[derive(Clone, Copy)]
pub struct WholeField<'a> {
    pub used: usize,
    pub value: Primitive<'a>,
}

/// The field at the front of the input, whose content may have up to `limit` bytes, in a container with room for this
/// many bytes, where all its bytes are there and it is lawful: the field that a `Partial` would make of them. An
/// \[inet\] and a content without a length are left to that.
#[inline(always)]
pub fn front_field<'a>(
    notation: Notation,
    limit: u32,
    room: u64,
    input: &'a [u8],
) -> Option<WholeField<'a>> {
    let wanted = Wanted {
        notation,
        limit,
        at: 0,
        room,
    };
    match read_content_head(notation, input) {
        Some((start, len, form)) => front_content(wanted, start, len, form, input),
        None => front_plain(wanted, input),
    }
}

/// The field with a content of this length, after this many bytes.
#[inline(always)]
fn front_content<'a>(
    wanted: Wanted,
    start: usize,
    len: u32,
    form: ContentForm,
    input: &'a [u8],
) -> Option<WholeField<'a>> {
    let used = start + len as usize;
    if len > wanted.limit || used as u64 > wanted.room || used > input.len() {
        return None;
    }
    let content = &input[start..used];
    if !form.accepts(content) {
        return None;
    }
    Some(WholeField {
        used,
        value: form.prim(content),
    })
}

/// The field without a content.
#[inline(always)]
fn front_plain<'a>(wanted: Wanted, input: &[u8]) -> Option<WholeField<'a>> {
    let used = wanted.notation.fixed();
    if used as u64 > wanted.room || used > input.len() {
        return None;
    }
    let value = plain_value(wanted.notation, input)?;
    Some(WholeField { used, value })
}

/// The value of a field in this notation, where it ends with its fixed part.
#[inline(always)]
fn plain_value<'a>(notation: Notation, input: &[u8]) -> Option<Primitive<'a>> {
    match notation {
        Notation::Byte => Some(Primitive::Byte(u8::from_be_bytes(first(input)))),
        Notation::Short => Some(Primitive::Short(u16::from_be_bytes(first(input)))),
        Notation::Count16 => Some(Primitive::Count(u16::from_be_bytes(first(input)).into())),
        Notation::Int => Some(Primitive::Int(i32::from_be_bytes(first(input)))),
        Notation::Long => Some(Primitive::Long(i64::from_be_bytes(first(input)))),
        Notation::Uuid => Some(Primitive::Uuid(first(input))),
        Notation::Count32 => match read_natural(input) {
            Some(count) => Some(Primitive::Count(count)),
            None => None,
        },
        Notation::Bytes32 => match read_natural(input) {
            Some(_) => None,
            None => Some(Primitive::Bytes(None)),
        },
        Notation::Bound => match bare_value(u32::from_be_bytes(first(input))) {
            Some(value) => Some(Primitive::Bound(value)),
            None => None,
        },
        Notation::Text16
        | Notation::Text32
        | Notation::Bytes16
        | Notation::Inet
        | Notation::Content(_) => None,
    }
}

/// The value of a request without a content, by its length: null is -1, and not set is -2.
#[inline(always)]
fn bare_value<'a>(len: u32) -> Option<BoundValue<'a>> {
    if len == u32::MAX {
        Some(BoundValue::Null)
    } else if len == u32::MAX - 1 {
        Some(BoundValue::Unset)
    } else {
        None
    }
}
