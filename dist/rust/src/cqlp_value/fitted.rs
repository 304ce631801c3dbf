// Written by dist/erase from crates/cqlp_value/src/fitted.rt.
//! How many bytes spell a value that fits its type.

use crate::cqlp_value::fitting::{MOST, fits, is};
use crate::cqlp_value::measure::value_size;
use crate::cqlp_value::value::{Atom, Value};
use crate::cqlp_type::{Kind, TypeTree};

/// How many bytes spell a value of this type, or of a cell without a type, the four of its length counted; 2^64 - 1 where there are
/// more. None where it is none of the type, as [`fits`] says. What its scalars hold is then in the range of their types.
///
/// It goes through the value once, where [`fits`] and [`value_size`] go through it twice.
#[must_use]
#[inline(always)]
pub fn fitting_size(value: &Value, of: Option<&TypeTree>) -> Option<u64> {
    match of {
        Some(tree) => size_in(value, tree),
        None => size_if(fits(value, None), value),
    }
}

/// The same of a type.
#[inline(always)]
fn size_in(value: &Value, tree: &TypeTree) -> Option<u64> {
    match value {
        Value::Leaf(atom) => match tree {
            TypeTree::Plain(kind) => scalar_size(atom, *kind),
            _ => any_size_in(value, tree),
        },
        _ => any_size_in(value, tree),
    }
}

/// The same of a value that is mostly no scalar.
fn any_size_in(value: &Value, tree: &TypeTree) -> Option<u64> {
    match value {
        Value::List(items) => match tree {
            TypeTree::List(inner) => counted(items.len(), items_size_in(items, inner)),
            _ => size_if(fits(value, Some(tree)), value),
        },
        Value::Set(items) => match tree {
            TypeTree::Set(inner) => counted(items.len(), items_size_in(items, inner)),
            _ => size_if(fits(value, Some(tree)), value),
        },
        Value::Map(pairs) => match tree {
            TypeTree::Map(keys, values) => counted(pairs.len(), pairs_size_in(pairs, keys, values)),
            _ => size_if(fits(value, Some(tree)), value),
        },
        _ => size_if(fits(value, Some(tree)), value),
    }
}

/// The same of values side by side, each of this type. Mostly they are scalars of one kind.
#[inline(always)]
fn items_size_in(items: &[Value], tree: &TypeTree) -> Option<u64> {
    match tree {
        TypeTree::Plain(kind) => match scalars_size(items, *kind) {
            Some(size) => Some(size),
            None => each_size_in(items, tree),
        },
        _ => each_size_in(items, tree),
    }
}

/// The same, of any values.
#[inline(never)]
fn each_size_in(items: &[Value], tree: &TypeTree) -> Option<u64> {
    let mut size: u64 = 0;
    for item in items {
        match size_in(item, tree) {
            Some(more) => size = size.saturating_add(more),
            None => return None,
        }
    }
    Some(size)
}

/// The same of pairs, each of these types.
#[inline(always)]
fn pairs_size_in(pairs: &[(Value, Value)], keys: &TypeTree, values: &TypeTree) -> Option<u64> {
    match keys {
        TypeTree::Plain(key) => match values {
            TypeTree::Plain(value) => match scalar_pairs_size(pairs, *key, *value) {
                Some(size) => Some(size),
                None => each_pair_size_in(pairs, keys, values),
            },
            _ => each_pair_size_in(pairs, keys, values),
        },
        _ => each_pair_size_in(pairs, keys, values),
    }
}

/// The same, of any pairs.
#[inline(never)]
fn each_pair_size_in(pairs: &[(Value, Value)], keys: &TypeTree, values: &TypeTree) -> Option<u64> {
    let mut size: u64 = 0;
    for (key, value) in pairs {
        match size_in(key, keys) {
            Some(more) => size = size.saturating_add(more),
            None => return None,
        }
        match size_in(value, values) {
            Some(more) => size = size.saturating_add(more),
            None => return None,
        }
    }
    Some(size)
}

/// The size of values that all are scalars of this kind, which is one of those that lists and sets mostly have; else None. Each has a loop
/// of its own, in which the content of that kind alone is looked at.
#[inline(always)]
fn scalars_size(items: &[Value], kind: Kind) -> Option<u64> {
    match kind {
        Kind::Int => scalars_of(items, Kind::Int),
        Kind::Bigint => scalars_of(items, Kind::Bigint),
        Kind::Varchar => scalars_of(items, Kind::Varchar),
        Kind::Double => scalars_of(items, Kind::Double),
        Kind::Float => scalars_of(items, Kind::Float),
        Kind::Uuid => scalars_of(items, Kind::Uuid),
        _ => None,
    }
}

/// The size of values that all are scalars of this kind.
#[inline(always)]
fn scalars_of(items: &[Value], kind: Kind) -> Option<u64> {
    let mut size: u64 = 0;
    for item in items {
        match leaf_size(item, kind) {
            Some(more) => size = size.saturating_add(more),
            None => return None,
        }
    }
    Some(size)
}

/// The size of pairs whose keys all are scalars of the first kind and whose values are of the second, if these are kinds that maps mostly
/// have; else None.
#[inline(always)]
fn scalar_pairs_size(pairs: &[(Value, Value)], keys: Kind, values: Kind) -> Option<u64> {
    match keys {
        Kind::Varchar => scalar_pairs_to(pairs, Kind::Varchar, values),
        Kind::Int => scalar_pairs_to(pairs, Kind::Int, values),
        _ => None,
    }
}

/// The same, whatever the kind of the keys.
#[inline(always)]
fn scalar_pairs_to(pairs: &[(Value, Value)], keys: Kind, values: Kind) -> Option<u64> {
    match values {
        Kind::Int => scalar_pairs_of(pairs, keys, Kind::Int),
        Kind::Bigint => scalar_pairs_of(pairs, keys, Kind::Bigint),
        Kind::Varchar => scalar_pairs_of(pairs, keys, Kind::Varchar),
        Kind::Double => scalar_pairs_of(pairs, keys, Kind::Double),
        _ => None,
    }
}

/// The size of pairs whose keys all are scalars of the first kind and whose values are of the second.
#[inline(always)]
fn scalar_pairs_of(pairs: &[(Value, Value)], keys: Kind, values: Kind) -> Option<u64> {
    let mut size: u64 = 0;
    for (key, value) in pairs {
        match leaf_size(key, keys) {
            Some(more) => size = size.saturating_add(more),
            None => return None,
        }
        match leaf_size(value, values) {
            Some(more) => size = size.saturating_add(more),
            None => return None,
        }
    }
    Some(size)
}

/// The size of a value that is a scalar of this kind.
#[inline(always)]
fn leaf_size(value: &Value, kind: Kind) -> Option<u64> {
    match value {
        Value::Leaf(atom) => scalar_size(atom, kind),
        _ => None,
    }
}

/// The size of a collection of so many items, by that of its items, if a count says so many.
#[inline(always)]
fn counted(len: usize, items: Option<u64>) -> Option<u64> {
    match items {
        Some(size) => {
            if len > MOST {
                None
            } else {
                Some(size.saturating_add(8))
            }
        }
        None => None,
    }
}

/// The size of a value, if it fits.
fn size_if(fits: bool, value: &Value) -> Option<u64> {
    if fits { Some(value_size(value)) } else { None }
}

/// The size of a scalar, if it is one of this kind.
#[inline(always)]
fn scalar_size(atom: &Atom, kind: Kind) -> Option<u64> {
    if is(atom.kind(), kind) {
        atom.allowed_size()
    } else {
        None
    }
}
