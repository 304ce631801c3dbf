// Written by dist/erase from crates/cqlp_type/src/size.rt.
//! How many bytes a type's option has.

use crate::kit_std::prelude::{String};
use crate::cqlp_type::tree::TypeTree;

/// How many bytes a type's option has, if it has one; 2^64 - 1 where there are more.
pub fn type_size(tree: &TypeTree) -> u64 {
    match tree {
        TypeTree::Plain(_) => 2,
        TypeTree::Custom(class) => text_size(class).saturating_add(2),
        TypeTree::List(inner) => type_size(inner).saturating_add(2),
        TypeTree::Set(inner) => type_size(inner).saturating_add(2),
        TypeTree::Map(key, value) => {
            type_size(key)
                .saturating_add(type_size(value))
                .saturating_add(2)
        }
        TypeTree::Udt {
            keyspace,
            name,
            fields,
        } => {
            let texts = text_size(keyspace).saturating_add(text_size(name));
            fields_size(fields).saturating_add(texts).saturating_add(4)
        }
        TypeTree::Tuple(types) => types_size(types).saturating_add(4),
    }
}

/// The same of inner types without names.
fn types_size(types: &[TypeTree]) -> u64 {
    let mut size: u64 = 0;
    for tree in types {
        size = size.saturating_add(type_size(tree));
    }
    size
}

/// The same of inner types with names.
fn fields_size(fields: &[(String, TypeTree)]) -> u64 {
    let mut size: u64 = 0;
    for (name, tree) in fields {
        size = size.saturating_add(text_size(name));
        size = size.saturating_add(type_size(tree));
    }
    size
}

/// How many bytes a text has, those of its length counted.
fn text_size(text: &String) -> u64 {
    text.len() as u64 + 2
}
