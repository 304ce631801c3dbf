// Written by dist/erase from crates/cqlp_type/src/tree.rt.
//! Types as trees.

use crate::kit_std::prelude::{Box, String, Vec};
use crate::cqlp_kind::Kind;
use crate::cqlp_note::Header;

/// The longest option, which is also the longest body of a frame.
const LONGEST: u32 = Header::LONGEST_BODY;

/// A type, with the texts of its option. Section 4.2.5.2 of `native_protocol_v4.spec`.
#[derive(Debug, PartialEq, Eq)]
pub enum TypeTree {
    /// A type without parameters: of a kind that is plain. Of any other kind, `Raw` among them, it has no option.
    Plain(Kind),
    /// A type that is known by the name of its class.
    Custom(String),
    /// A list, by the type of its elements.
    List(Box<TypeTree>),
    /// A set, by the type of its elements.
    Set(Box<TypeTree>),
    /// The types of the keys and of the values.
    Map(Box<TypeTree>, Box<TypeTree>),
    /// A user-defined type, whose fields have names.
    Udt {
        /// The keyspace in which the type is defined, a \[string\] of at most 65,535 bytes.
        keyspace: String,
        /// The name of the type in that keyspace, a \[string\] of at most 65,535 bytes.
        name: String,
        /// The name and the type of each field, in the order of a value's bytes: at most 65,535 fields, with names of at most 65,535 bytes.
        fields: Vec<(String, TypeTree)>,
    },
    /// A tuple, by the types of its items in their order, at most 65,535.
    Tuple(Vec<TypeTree>),
}

/// How many bytes a type's option has. None where it has no option, since a text has more than 65,535 bytes, a
/// user-defined type or a tuple has more fields than that, or a `Plain` is of the kind `Raw` or of one that has
/// parameters; and where the option has more than 268,435,456 bytes. `laws::len_is_of_option` says so by the bytes.
#[must_use]
pub fn type_len(tree: &TypeTree) -> Option<u32> {
    match tree {
        TypeTree::Plain(kind) => { if kind.is_plain() { Some(2) } else { None } }
        TypeTree::Custom(class) => sum(Some(2), text_len(class)),
        TypeTree::List(inner) => sum(Some(2), type_len(inner)),
        TypeTree::Set(inner) => sum(Some(2), type_len(inner)),
        TypeTree::Map(key, value) => sum(sum(Some(2), type_len(key)), type_len(value)),
        TypeTree::Udt {
            keyspace,
            name,
            fields,
        } => {
            let texts = sum(text_len(keyspace), text_len(name));
            let head = sum(sum(Some(2), texts), count_len(fields.len()));
            sum(head, fields_len(fields))
        }
        TypeTree::Tuple(types) => {
            let head = sum(Some(2), count_len(types.len()));
            sum(head, types_len(types))
        }
    }
}

/// The same of inner types without names.
fn types_len(types: &[TypeTree]) -> Option<u32> {
    let mut len = Some(0);
    for tree in types {
        len = sum(len, type_len(tree));
    }
    len
}

/// The same of inner types with names.
fn fields_len(fields: &[(String, TypeTree)]) -> Option<u32> {
    let mut len = Some(0);
    for (name, tree) in fields {
        len = sum(len, sum(text_len(name), type_len(tree)));
    }
    len
}

/// Both lengths together.
fn sum(a: Option<u32>, b: Option<u32>) -> Option<u32> {
    match (a, b) {
        (Some(a), Some(b)) if a <= LONGEST && b <= LONGEST - a => Some(a + b),
        _ => None,
    }
}

/// How many bytes a text has, those of its length counted.
fn text_len(text: &String) -> Option<u32> {
    let len = text.len();
    if len <= 65_535 {
        Some(2 + len as u32)
    } else {
        None
    }
}

/// How many bytes a count has.
fn count_len(count: usize) -> Option<u32> {
    if count <= 65_535 { Some(2) } else { None }
}
