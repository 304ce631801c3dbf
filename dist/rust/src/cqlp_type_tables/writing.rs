// Written by dist/erase from crates/cqlp_type_tables/src/writing.rt.
//! Type options, written into memory.

use crate::kit_std::prelude::{KitVec, String, Vec};
use crate::cqlp_note::NoMemory;
use crate::cqlp_type::{Kind, TypeTree};

/// Appends a type's option.
#[cfg_attr(not(feature = "cli"), inline)]
pub(crate) fn put_tree(out: &mut Vec<u8>, tree: &TypeTree) -> Result<(), NoMemory> {
    match tree {
        TypeTree::Plain(kind) => put_kind(out, *kind),
        TypeTree::Custom(class) => {
            put_kind(out, Kind::Custom)?;
            put_text(out, class)
        }
        TypeTree::List(inner) => {
            put_kind(out, Kind::List)?;
            put_tree(out, inner)
        }
        TypeTree::Set(inner) => {
            put_kind(out, Kind::Set)?;
            put_tree(out, inner)
        }
        TypeTree::Map(key, value) => {
            put_kind(out, Kind::Map)?;
            put_tree(out, key)?;
            put_tree(out, value)
        }
        TypeTree::Udt {
            keyspace,
            name,
            fields,
        } => {
            put_kind(out, Kind::Udt)?;
            put_text(out, keyspace)?;
            put_text(out, name)?;
            put_count(out, fields.len())?;
            put_fields(out, fields)
        }
        TypeTree::Tuple(types) => {
            put_kind(out, Kind::Tuple)?;
            put_count(out, types.len())?;
            put_types(out, types)
        }
    }
}

/// Appends the options of inner types without names.
#[cfg_attr(not(feature = "cli"), inline)]
fn put_types(out: &mut Vec<u8>, types: &[TypeTree]) -> Result<(), NoMemory> {
    for tree in types {
        put_tree(out, tree)?;
    }
    Ok(())
}

/// Appends the options of inner types, each after its name.
#[cfg_attr(not(feature = "cli"), inline)]
fn put_fields(
    out: &mut Vec<u8>,
    fields: &[(String, TypeTree)],
) -> Result<(), NoMemory> {
    for (name, tree) in fields {
        put_text(out, name)?;
        put_tree(out, tree)?;
    }
    Ok(())
}

/// Appends an option's id; 0 of the kind that has none.
#[cfg_attr(not(feature = "cli"), inline)]
fn put_kind(out: &mut Vec<u8>, kind: Kind) -> Result<(), NoMemory> {
    let id = match kind {
        Kind::Raw => 0,
        _ => kind.id(),
    };
    put_count(out, id as usize)
}

/// Appends a \[string\].
#[cfg_attr(not(feature = "cli"), inline)]
fn put_text(out: &mut Vec<u8>, text: &str) -> Result<(), NoMemory> {
    put_count(out, text.len())?;
    out.kit_extend_from_slice(text.as_bytes())?;
    Ok(())
}

/// Appends a number of two bytes, the lowest two of this.
#[cfg_attr(not(feature = "cli"), inline)]
fn put_count(out: &mut Vec<u8>, count: usize) -> Result<(), NoMemory> {
    let bytes = count.to_be_bytes();
    out.kit_extend_from_slice(&bytes[6..])?;
    Ok(())
}
