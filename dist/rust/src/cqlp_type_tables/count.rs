// Written by dist/erase from crates/cqlp_type_tables/src/count.rt.
//! How many nodes types have.

use crate::kit_std::prelude::{String};
use crate::cqlp_type::TypeTree;

/// How many nodes a type has, those of its inner types counted; 2^64 - 1 where there are more.
pub(crate) fn count_nodes(tree: &TypeTree) -> u64 {
    match tree {
        TypeTree::Plain(_) => 1,
        TypeTree::Custom(_) => 1,
        TypeTree::List(inner) => count_nodes(inner).saturating_add(1),
        TypeTree::Set(inner) => count_nodes(inner).saturating_add(1),
        TypeTree::Map(key, value) => {
            count_nodes(key)
                .saturating_add(count_nodes(value))
                .saturating_add(1)
        }
        TypeTree::Udt {
            keyspace: _,
            name: _,
            fields,
        } => count_fields(fields).saturating_add(1),
        TypeTree::Tuple(types) => count_types(types).saturating_add(1),
    }
}

/// The same of inner types without names.
fn count_types(types: &[TypeTree]) -> u64 {
    let mut count: u64 = 0;
    for tree in types {
        count = count.saturating_add(count_nodes(tree));
    }
    count
}

/// The same of inner types with names.
fn count_fields(fields: &[(String, TypeTree)]) -> u64 {
    let mut count: u64 = 0;
    for (_name, tree) in fields {
        count = count.saturating_add(count_nodes(tree));
    }
    count
}
