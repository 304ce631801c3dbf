// Written by dist/erase from crates/cqlp_value/src/measure.rt.
//! How many bytes spell a value.

use crate::cqlp_value::fitting::fits;
use crate::cqlp_value::value::{Value};
use crate::cqlp_note::Header;
use crate::cqlp_type::TypeTree;

/// The longest value, which is also the longest body of a frame.
const LONGEST: u64 = Header::LONGEST_BODY as u64;

/// How many bytes spell a value of this type, or of a cell without a type: those of its \[bytes\], with the four of the
/// length. None where the value does not fit the type, as [`fits`] says, and where that is more than 268,435,456.
#[must_use]
pub fn value_len(value: &Value, of: Option<&TypeTree>) -> Option<u32> {
    let size = value_size(value);
    if size > LONGEST {
        return None;
    }
    if fits(value, of) {
        Some(size as u32)
    } else {
        None
    }
}

/// How many bytes of a value follow its length; 2^64 - 5 where there are more.
#[must_use]
pub fn content_len(value: &Value) -> u64 {
    value_size(value) - 4
}

/// How many bytes spell a value, the four of its length counted; 2^64 - 1 where there are more. What its scalars hold is
/// in the range of their types.
#[must_use]
#[inline(always)]
pub fn value_size(value: &Value) -> u64 {
    match value {
        Value::Leaf(atom) => atom.size(),
        _ => any_size(value),
    }
}

/// The same of a value that is mostly no scalar.
fn any_size(value: &Value) -> u64 {
    match value {
        Value::Null => 4,
        Value::Empty => 4,
        Value::Leaf(atom) => atom.size(),
        Value::List(items) => items_size(items).saturating_add(8),
        Value::Set(items) => items_size(items).saturating_add(8),
        Value::Map(pairs) => pairs_size(pairs).saturating_add(8),
        Value::Tuple(items) => items_size(items).saturating_add(4),
        Value::Udt(items) => items_size(items).saturating_add(4),
    }
}

/// The same of values side by side.
fn items_size(items: &[Value]) -> u64 {
    let mut size: u64 = 0;
    for item in items {
        size = size.saturating_add(value_size(item));
    }
    size
}

/// The same of pairs.
fn pairs_size(pairs: &[(Value, Value)]) -> u64 {
    let mut size: u64 = 0;
    for (key, value) in pairs {
        size = size.saturating_add(value_size(key));
        size = size.saturating_add(value_size(value));
    }
    size
}
