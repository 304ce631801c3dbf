// Written by dist/erase from crates/cqlp_value/src/fitting.rt.
//! Whether values fit their types.

use crate::kit_std::prelude::{String};
use crate::cqlp_value::value::{Atom, Value};
use crate::cqlp_type::{Kind, TypeTree};

/// The most items that a count says.
pub const MOST: usize = i32::MAX as usize;

/// Whether a value is one of this type, or of a cell without a type. Section 6 of `native_protocol_v4.spec`.
///
/// Null and empty are of any type. A scalar is of its own kind alone, and has some bytes: where it has none, as an empty
/// text, the value is [`Value::Empty`], which [`Value::scalar`] makes of it. An ascii is ASCII, a timeuuid of version 1, a
/// time within a day, and a decimal has an unscaled number. A list, a set or a map has at most
/// 2,147,483,647 items, which fit. A tuple or a user-defined type has one field at least and no more than its type,
/// which fit. Without a type a value is raw.
#[must_use]
#[inline(always)]
pub fn fits(value: &Value, of: Option<&TypeTree>) -> bool {
    match of {
        Some(tree) => is_of(value, tree),
        None => match value {
            Value::Null | Value::Empty => true,
            Value::Leaf(atom) => is_scalar_of(atom, Kind::Raw),
            _ => false,
        },
    }
}

/// The same of a type.
#[inline(always)]
fn is_of(value: &Value, tree: &TypeTree) -> bool {
    match value {
        Value::Leaf(atom) => is_scalar_of(atom, kind(tree)),
        _ => is_any_of(value, tree),
    }
}

/// The same of a value that is mostly no scalar.
fn is_any_of(value: &Value, tree: &TypeTree) -> bool {
    match value {
        Value::Null => true,
        Value::Empty => true,
        Value::Leaf(atom) => is_scalar_of(atom, kind(tree)),
        Value::List(items) => has_count(Kind::List, items.len(), tree) && items_fit(items, tree),
        Value::Set(items) => has_count(Kind::Set, items.len(), tree) && items_fit(items, tree),
        Value::Map(pairs) => has_count(Kind::Map, pairs.len(), tree) && pairs_fit(pairs, tree),
        Value::Tuple(items) => has_some(Kind::Tuple, items.len(), tree) && fields_fit(items, tree),
        Value::Udt(items) => has_some(Kind::Udt, items.len(), tree) && fields_fit(items, tree),
    }
}

/// The same of the items of a list or a set.
fn items_fit(items: &[Value], tree: &TypeTree) -> bool {
    match tree {
        TypeTree::List(inner) => each_fits(items, inner),
        TypeTree::Set(inner) => each_fits(items, inner),
        _ => items.is_empty(),
    }
}

/// Whether each item is one of this type.
fn each_fits(items: &[Value], tree: &TypeTree) -> bool {
    for item in items {
        if !is_of(item, tree) {
            return false;
        }
    }
    true
}

/// The same of the pairs of a map.
fn pairs_fit(pairs: &[(Value, Value)], tree: &TypeTree) -> bool {
    match tree {
        TypeTree::Map(keys, values) => each_pair_fits(pairs, keys, values),
        _ => pairs.is_empty(),
    }
}

/// Whether each key and each value is one of these types.
fn each_pair_fits(pairs: &[(Value, Value)], keys: &TypeTree, values: &TypeTree) -> bool {
    for (key, value) in pairs {
        if !is_of(key, keys) {
            return false;
        }
        if !is_of(value, values) {
            return false;
        }
    }
    true
}

/// The same of the fields of a tuple or a user-defined type.
fn fields_fit(items: &[Value], tree: &TypeTree) -> bool {
    match tree {
        TypeTree::Tuple(types) => types_fit(items, types),
        TypeTree::Udt { fields, .. } => named_fit(items, fields),
        TypeTree::Plain(_) => items.is_empty(),
        TypeTree::Custom(_) => false,
        TypeTree::List(_) => false,
        TypeTree::Set(_) => false,
        TypeTree::Map(_, _) => false,
    }
}

/// The same of the fields of a tuple.
fn types_fit(items: &[Value], types: &[TypeTree]) -> bool {
    if items.len() > types.len() {
        return false;
    }
    for (i, item) in items.iter().enumerate() {
        if !is_of(item, &types[i]) {
            return false;
        }
    }
    true
}

/// The same of the fields of a user-defined type.
fn named_fit(items: &[Value], fields: &[(String, TypeTree)]) -> bool {
    if items.len() > fields.len() {
        return false;
    }
    for (i, item) in items.iter().enumerate() {
        if !is_of(item, &fields[i].1) {
            return false;
        }
    }
    true
}

/// Whether a scalar is one of this kind.
#[inline(always)]
fn is_scalar_of(atom: &Atom, kind: Kind) -> bool {
    is(atom.kind(), kind) && atom.is_allowed()
}

/// Whether a type is of this kind, and a count says so many items.
fn has_count(of: Kind, len: usize, tree: &TypeTree) -> bool {
    is(of, kind(tree)) && len <= MOST
}

/// Whether a type is of this kind, and there is a field.
fn has_some(of: Kind, len: usize, tree: &TypeTree) -> bool {
    is(of, kind(tree)) && len > 0
}

/// The kind of a type.
#[inline(always)]
fn kind(tree: &TypeTree) -> Kind {
    if let TypeTree::Plain(kind) = tree {
        *kind
    } else {
        kind_with_inner(tree)
    }
}

/// The same of a type that is mostly not plain.
fn kind_with_inner(tree: &TypeTree) -> Kind {
    match tree {
        TypeTree::Plain(kind) => *kind,
        TypeTree::Custom(_) => Kind::Custom,
        TypeTree::List(_) => Kind::List,
        TypeTree::Set(_) => Kind::Set,
        TypeTree::Map(_, _) => Kind::Map,
        TypeTree::Udt { .. } => Kind::Udt,
        TypeTree::Tuple(_) => Kind::Tuple,
    }
}

/// Whether two kinds are the same.
#[inline(always)]
pub fn is(one: Kind, other: Kind) -> bool {
    one == other
}
