// Written by dist/erase from crates/cqlp_read_value/src/reading.rt.
//! A value, read whole.

use crate::kit_std::prelude::{KitVec, String, Vec};
use crate::cqlp_read_value::error::ReadError;
use crate::cqlp_read_value::front::{Front, front_content, front_count, refused, rest};
use crate::cqlp_read_value::owned::own;
use crate::cqlp_kind::content::allows;
use crate::cqlp_note::{Limits, Reason};
use crate::cqlp_type::{Kind, TypeTree, check_type};
use crate::cqlp_value::{Value, scalar};

/// What the reading of a value goes by.
struct Reading {
    limits: Limits,
}

/// Reads the value of this type, or of a cell without a type, that these bytes are: a whole \[bytes\], the four of its length
/// counted. Sections 3 and 6 of `native_protocol_v4.spec`.
///
/// Of the limits `cell` alone counts, the most bytes of one scalar; nothing comes in parts. How deep it calls itself is bounded by
/// the type. No count that a peer sends decides how much memory it takes: each item is put to those before it when its bytes are
/// there.
///
/// # Errors
///
/// [`ReadError::Unformed`] where [`check_type`] says that the type is not formed, whatever the bytes are. Else
/// [`ReadError::Refused`] at the first byte that a reader of cells would refuse, for its reason, where the bytes spell no value of the
/// type within the limits: offsets are those in the bytes. `Overrun` where a length passes them or the value around it,
/// `BadCount` where a count is negative, `BadSize`, `TooLong`, `BadUtf8` and `BadScalar` at a scalar, and `ExtraInValue`
/// at the first byte after the last item of a value, or after the value itself. [`ReadError::NoMemory`] where memory was
/// refused, which is asked for only for a text or bytes, or for a value in another, once it is read.
pub fn read_value(
    limits: &Limits,
    of: Option<&TypeTree>,
    bytes: &[u8],
) -> Result<Value, ReadError> {
    let reading = Reading {
        limits: *limits,
    };
    match of {
        None => read_all(&reading, &TypeTree::Plain(Kind::Raw), bytes),
        Some(tree) => {
            if check_type(tree).formed {
                read_all(&reading, tree, bytes)
            } else {
                Err(ReadError::Unformed)
            }
        }
    }
}

/// The same of a type that is formed, or of that of a cell without a type.
fn read_all(reading: &Reading, tree: &TypeTree, bytes: &[u8]) -> Result<Value, ReadError> {
    let front = read_front(reading, tree, bytes, 0)?;
    if front.used < bytes.len() {
        return Err(refused(front.used, Reason::ExtraInValue));
    }
    Ok(front.value)
}

/// The value of this type at the front of the bytes left in a container, which begin at this offset.
fn read_front(
    reading: &Reading,
    tree: &TypeTree,
    bytes: &[u8],
    at: usize,
) -> Result<Front, ReadError> {
    let Some(content) = front_content(bytes, at)? else {
        return Ok(Front {
            value: Value::Null,
            used: 4,
        });
    };
    let used = 4 + content.len();
    if content.is_empty() {
        return Ok(Front {
            value: Value::Empty,
            used,
        });
    }
    let value = read_content(reading, tree, content, at)?;
    Ok(Front { value, used })
}

/// The value of this type with this content, which is not empty. The value begins at this offset, with its length.
fn read_content(
    reading: &Reading,
    tree: &TypeTree,
    content: &[u8],
    at: usize,
) -> Result<Value, ReadError> {
    match tree {
        TypeTree::Plain(kind) => read_scalar(reading, *kind, content, at),
        TypeTree::Custom(_) => read_scalar(reading, Kind::Custom, content, at),
        TypeTree::List(inner) => Ok(Value::List(read_items(reading, inner, content, at)?)),
        TypeTree::Set(inner) => Ok(Value::Set(read_items(reading, inner, content, at)?)),
        TypeTree::Map(keys, values) => {
            Ok(Value::Map(read_pairs(reading, keys, values, content, at)?))
        }
        TypeTree::Tuple(types) => Ok(Value::Tuple(read_types(reading, types, content, at)?)),
        TypeTree::Udt { fields, .. } => Ok(Value::Udt(read_fields(reading, fields, content, at)?)),
    }
}

/// The items of a list or a set, after their count.
fn read_items(
    reading: &Reading,
    inner: &TypeTree,
    content: &[u8],
    at: usize,
) -> Result<Vec<Value>, ReadError> {
    let count = front_count(content, at)?;
    let body = rest(content, 4);
    let mut items = Vec::new();
    let mut used = 0;
    while items.len() < count as usize {
        let front = read_front(reading, inner, rest(body, used), at + 8 + used)?;
        items.kit_push(front.value)?;
        used += front.used;
    }
    if used < body.len() {
        return Err(refused(at + 8 + used, Reason::ExtraInValue));
    }
    Ok(items)
}

/// The pairs of a map, after their count.
fn read_pairs(
    reading: &Reading,
    keys: &TypeTree,
    values: &TypeTree,
    content: &[u8],
    at: usize,
) -> Result<Vec<(Value, Value)>, ReadError> {
    let count = front_count(content, at)?;
    let body = rest(content, 4);
    let mut pairs = Vec::new();
    let mut used = 0;
    while pairs.len() < count as usize {
        let key = read_front(reading, keys, rest(body, used), at + 8 + used)?;
        used += key.used;
        let value = read_front(reading, values, rest(body, used), at + 8 + used)?;
        used += value.used;
        pairs.kit_push((key.value, value.value))?;
    }
    if used < body.len() {
        return Err(refused(at + 8 + used, Reason::ExtraInValue));
    }
    Ok(pairs)
}

/// The fields of a tuple, as many as there are bytes for.
fn read_types(
    reading: &Reading,
    types: &[TypeTree],
    content: &[u8],
    at: usize,
) -> Result<Vec<Value>, ReadError> {
    let mut items = Vec::new();
    let mut used = 0;
    for tree in types {
        if used == content.len() {
            return Ok(items);
        }
        let front = read_front(reading, tree, rest(content, used), at + 4 + used)?;
        items.kit_push(front.value)?;
        used += front.used;
    }
    if used < content.len() {
        return Err(refused(at + 4 + used, Reason::ExtraInValue));
    }
    Ok(items)
}

/// The fields of a user-defined type, as many as there are bytes for.
fn read_fields(
    reading: &Reading,
    fields: &[(String, TypeTree)],
    content: &[u8],
    at: usize,
) -> Result<Vec<Value>, ReadError> {
    let mut items = Vec::new();
    let mut used = 0;
    for (_, tree) in fields {
        if used == content.len() {
            return Ok(items);
        }
        let front = read_front(reading, tree, rest(content, used), at + 4 + used)?;
        items.kit_push(front.value)?;
        used += front.used;
    }
    if used < content.len() {
        return Err(refused(at + 4 + used, Reason::ExtraInValue));
    }
    Ok(items)
}

/// The scalar of this kind with this content, which is not empty.
#[inline]
fn read_scalar(reading: &Reading, kind: Kind, content: &[u8], at: usize) -> Result<Value, ReadError> {
    if is_too_long(&reading.limits, kind, content.len()) {
        return Err(refused(at, Reason::TooLong));
    }
    match scalar(kind, content) {
        Ok(scalar) => Ok(Value::Leaf(own(scalar)?)),
        Err(why) => Err(refused(at, why)),
    }
}

/// Whether a content of this kind is past the limit on a cell, and of a length that the kind allows.
#[inline(always)]
pub(crate) fn is_too_long(limits: &Limits, kind: Kind, len: usize) -> bool {
    len > limits.cell as usize && allows(kind, len)
}
