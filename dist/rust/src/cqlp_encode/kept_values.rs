// Written by dist/erase from crates/cqlp_encode/src/kept_values.rt.
//! Values that are kept whole among the bytes that wait.

use crate::cqlp_encode::staged::Staged;
use crate::cqlp_note::Target;
use crate::cqlp_value::{Atom, Content, Value};

/// Keeps a value with its length among the bytes that wait, where there is room for all of it, and answers whether there is.
#[inline(always)]
pub fn keep_whole<W: Target>(out: &mut Staged<'_, W>, value: &Value) -> bool {
    if !is_short(value) {
        return false;
    }
    let start = out.waiting();
    if keep_nested(out, value) {
        return true;
    }
    out.cut(start);
    false
}

/// A guess whether a value has at most 256 bytes, half as many as may wait: as if all its items had as many as the first. Where it is wrong a value
/// is tried in vain, or measured, which takes time and nothing else.
#[inline(always)]
fn is_short(value: &Value) -> bool {
    match value {
        Value::List(items) => are_short(items),
        Value::Set(items) => are_short(items),
        Value::Map(pairs) => match pairs.first() {
            Some((key, value)) => pairs.len() <= 16
                && pairs.len() * (guess(key) + guess(value)) <= 256,
            None => true,
        },
        _ => true,
    }
}

/// The same of items.
#[inline(always)]
fn are_short(items: &[Value]) -> bool {
    match items.first() {
        Some(item) => items.len() <= 32 && items.len() * guess(item) <= 256,
        None => true,
    }
}

/// A guess how many bytes an item has with its length, at most 256.
#[inline(always)]
fn guess(item: &Value) -> usize {
    let Value::Leaf(atom) = item else {
        return 8;
    };
    match atom.content() {
        Content::Eight(_) => 12,
        Content::Lent(bytes) => bytes.len().min(252) + 4,
        Content::Decimal(_, unscaled) => unscaled.len().min(248) + 8,
        _ => 8,
    }
}

/// Keeps a value with its length, where there is room for all of it, and answers whether there is. Where there is not, some bytes of it
/// may be kept.
#[inline(always)]
fn keep_value<W: Target>(out: &mut Staged<'_, W>, value: &Value) -> bool {
    match value {
        Value::Leaf(atom) => keep_atom(out, atom),
        _ => keep_nested(out, value),
    }
}

/// The same, in a function of its own, of a value that mostly is no scalar.
fn keep_nested<W: Target>(out: &mut Staged<'_, W>, value: &Value) -> bool {
    match value {
        Value::Null => out.keep_few(&[255; 4]),
        Value::Empty => out.keep_few(&[0; 4]),
        Value::Leaf(atom) => keep_atom(out, atom),
        Value::List(items) => keep_items(out, items),
        Value::Set(items) => keep_items(out, items),
        Value::Map(pairs) => keep_entries(out, pairs),
        Value::Tuple(items) => keep_fields(out, items),
        Value::Udt(items) => keep_fields(out, items),
    }
}

/// The same of the items of a list or a set, after the length of them all and their count.
#[inline(always)]
fn keep_items<W: Target>(out: &mut Staged<'_, W>, items: &[Value]) -> bool {
    let start = out.waiting();
    if !out.keep_few(&items.len().to_be_bytes()) {
        return false;
    }
    if !keep_values(out, items) {
        return false;
    }
    out.write_length(start);
    true
}

/// The same of the pairs of a map.
#[inline(always)]
fn keep_entries<W: Target>(out: &mut Staged<'_, W>, pairs: &[(Value, Value)]) -> bool {
    let start = out.waiting();
    if !out.keep_few(&pairs.len().to_be_bytes()) {
        return false;
    }
    if !keep_pairs(out, pairs) {
        return false;
    }
    out.write_length(start);
    true
}

/// The same of the fields of a tuple or a user-defined type, after the length of them all.
#[inline(always)]
fn keep_fields<W: Target>(out: &mut Staged<'_, W>, fields: &[Value]) -> bool {
    let start = out.waiting();
    if !out.keep_few(&[0; 4]) {
        return false;
    }
    if !keep_values(out, fields) {
        return false;
    }
    out.write_length(start);
    true
}

/// The same of values, each with its length.
fn keep_values<W: Target>(out: &mut Staged<'_, W>, values: &[Value]) -> bool {
    for value in values {
        if !keep_value(out, value) {
            return false;
        }
    }
    true
}

/// The same of pairs, of each the key and the value with their lengths.
fn keep_pairs<W: Target>(out: &mut Staged<'_, W>, pairs: &[(Value, Value)]) -> bool {
    for (key, value) in pairs {
        if !keep_value(out, key) {
            return false;
        }
        if !keep_value(out, value) {
            return false;
        }
    }
    true
}

/// The same of a scalar with its length.
#[inline(always)]
fn keep_atom<W: Target>(out: &mut Staged<'_, W>, atom: &Atom) -> bool {
    match atom.content() {
        Content::One(number) => out.keep_number(&[number]),
        Content::Two(number) => out.keep_number(&number.to_be_bytes()),
        Content::Four(number) => out.keep_number(&number.to_be_bytes()),
        Content::Eight(number) => out.keep_number(&number.to_be_bytes()),
        Content::Lent(bytes) => out.keep_content(bytes),
        Content::Decimal(scale, unscaled) => keep_decimal(out, scale, unscaled),
    }
}

/// The same of a decimal.
fn keep_decimal<W: Target>(out: &mut Staged<'_, W>, scale: [u8; 4], unscaled: &[u8]) -> bool {
    if !out.keep_count32(unscaled.len().saturating_add(scale.len())) {
        return false;
    }
    if !out.keep_few(&scale) {
        return false;
    }
    out.keep_many(unscaled)
}
