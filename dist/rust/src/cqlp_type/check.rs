// Written by dist/erase from crates/cqlp_type/src/check.rt.
//! What keeps a type from having an option.

use crate::kit_std::prelude::{String};
use crate::cqlp_type::tree::TypeTree;

/// Whether a type, with all types in it, can have an option: each of these where none of them is in the way.
#[derive(Clone, Copy, Debug, PartialEq, Eq)]
pub struct TreeCheck {
    /// Each `Plain` is of a kind that is plain.
    pub formed: bool,
    /// A \[short\] can count the fields of each type.
    pub counts: bool,
    /// A \[short\] can count the bytes of each text.
    pub texts: bool,
}

impl TreeCheck {
    /// Both.
    fn and(self, other: TreeCheck) -> TreeCheck {
        TreeCheck {
            formed: self.formed && other.formed,
            counts: self.counts && other.counts,
            texts: self.texts && other.texts,
        }
    }
}

/// What keeps a type from having an option.
#[must_use]
pub fn check_type(tree: &TypeTree) -> TreeCheck {
    match tree {
        TypeTree::Plain(kind) => checked(kind.is_plain(), true, true),
        TypeTree::Custom(class) => checked(true, true, is_counted(class.len())),
        TypeTree::List(inner) | TypeTree::Set(inner) => check_type(inner),
        TypeTree::Map(key, value) => check_type(key).and(check_type(value)),
        TypeTree::Udt {
            keyspace,
            name,
            fields,
        } => {
            let counts = is_counted(fields.len());
            let texts = checked(true, counts, is_counted(keyspace.len())).and(checked(
                true,
                true,
                is_counted(name.len()),
            ));
            texts.and(check_fields(fields))
        }
        TypeTree::Tuple(types) => {
            checked(true, is_counted(types.len()), true).and(check_types(types))
        }
    }
}

/// The same of inner types without names.
fn check_types(types: &[TypeTree]) -> TreeCheck {
    let mut check = checked(true, true, true);
    for tree in types {
        check = check.and(check_type(tree));
    }
    check
}

/// The same of inner types with names.
fn check_fields(fields: &[(String, TypeTree)]) -> TreeCheck {
    let mut check = checked(true, true, true);
    for (name, tree) in fields {
        let named = checked(true, true, is_counted(name.len()));
        check = check.and(named.and(check_type(tree)));
    }
    check
}

/// What is found so far.
fn checked(formed: bool, counts: bool, texts: bool) -> TreeCheck {
    TreeCheck {
        formed,
        counts,
        texts,
    }
}

/// Whether a \[short\] can count this many.
fn is_counted(count: usize) -> bool {
    count < 65_536
}
