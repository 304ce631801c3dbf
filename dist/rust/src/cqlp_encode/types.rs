// Written by dist/erase from crates/cqlp_encode/src/types.rt.
//! Type options, written.

use crate::kit_std::prelude::{String};
use crate::cqlp_encode::staged::Staged;
use crate::cqlp_note::Target;
use crate::cqlp_type::{Kind, TypeTree};

/// Takes a type's option.
pub fn put_tree<W: Target>(out: &mut Staged<'_, W>, tree: &TypeTree) {
    match tree {
        TypeTree::Plain(kind) => out.put_kind(*kind),
        TypeTree::Custom(class) => {
            out.put_kind(Kind::Custom);
            out.put_text(class);
        }
        TypeTree::List(inner) => {
            out.put_kind(Kind::List);
            put_tree(out, inner);
        }
        TypeTree::Set(inner) => {
            out.put_kind(Kind::Set);
            put_tree(out, inner);
        }
        TypeTree::Map(key, value) => {
            out.put_kind(Kind::Map);
            put_tree(out, key);
            put_tree(out, value);
        }
        TypeTree::Udt {
            keyspace,
            name,
            fields,
        } => {
            out.put_kind(Kind::Udt);
            out.put_text(keyspace);
            out.put_text(name);
            out.put_count16(fields.len());
            put_fields(out, fields);
        }
        TypeTree::Tuple(types) => {
            out.put_kind(Kind::Tuple);
            out.put_count16(types.len());
            put_types(out, types);
        }
    }
}

/// Takes the options of inner types without names.
fn put_types<W: Target>(out: &mut Staged<'_, W>, types: &[TypeTree]) {
    for tree in types {
        put_tree(out, tree);
    }
}

/// Takes the options of inner types, each after its name.
fn put_fields<W: Target>(out: &mut Staged<'_, W>, fields: &[(String, TypeTree)]) {
    for (name, tree) in fields {
        out.put_text(name);
        put_tree(out, tree);
    }
}

impl<'a, W: Target> Staged<'a, W> {
    /// Takes an option's id; 0 of the kind that has none.
    fn put_kind(&mut self, kind: Kind) {
        let id = match kind {
            Kind::Raw => 0,
            _ => kind.id(),
        };
        self.put_short(id);
    }

    /// Takes a \[string\].
    pub fn put_text(&mut self, text: &str) {
        self.put_short_content(text.as_bytes());
    }
}
