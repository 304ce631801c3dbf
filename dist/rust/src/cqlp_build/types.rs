// Written by dist/erase from crates/cqlp_build/src/types.rt.
//! Types, of the events of their options.

use crate::kit_std::prelude::{Box, KitBox, KitVec, String, Vec};
use crate::cqlp_build::held::{Fault, FrameEvents};
use crate::cqlp_kind::Kind;
use crate::cqlp_note::Field;
use crate::cqlp_type::TypeTree;

impl FrameEvents {
    /// Takes a type option, with all in it. It calls itself as deep as types are nested.
    pub fn tree(&mut self) -> TypeTree {
        match self.next_kind() {
            Some(kind) => self.tree_of(kind),
            None => {
                self.refuse(Fault::NoFrame);
                TypeTree::Plain(Kind::Raw)
            }
        }
    }

    /// Takes what comes after the kind of a type option.
    fn tree_of(&mut self, kind: Kind) -> TypeTree {
        match kind {
            Kind::Custom => TypeTree::Custom(self.text(Field::Class)),
            Kind::List => {
                let inner = self.tree();
                self.list(inner)
            }
            Kind::Set => {
                let inner = self.tree();
                self.set(inner)
            }
            Kind::Map => {
                let key = self.tree();
                let value = self.tree();
                self.map(key, value)
            }
            Kind::Udt => {
                let keyspace = self.text(Field::Keyspace);
                let name = self.text(Field::TypeName);
                let count = self.count(Field::Fields);
                let fields = self.fields(count);
                TypeTree::Udt {
                    keyspace,
                    name,
                    fields,
                }
            }
            Kind::Tuple => {
                let count = self.count(Field::Fields);
                TypeTree::Tuple(self.types(count))
            }
            _ => {
                self.check(kind.is_plain());
                TypeTree::Plain(kind)
            }
        }
    }

    /// Takes this many type options.
    fn types(&mut self, count: u32) -> Vec<TypeTree> {
        let mut types = Vec::new();
        for _ in 0..count {
            let tree = self.tree();
            if self.fault.is_some() {
                return types;
            }
            if types.kit_push(tree).is_err() {
                self.fault = Some(Fault::NoMemory);
                return types;
            }
        }
        types
    }

    /// Takes this many names, each with a type option.
    fn fields(&mut self, count: u32) -> Vec<(String, TypeTree)> {
        let mut fields = Vec::new();
        for _ in 0..count {
            let name = self.text(Field::FieldName);
            let tree = self.tree();
            if self.fault.is_some() {
                return fields;
            }
            if fields.kit_push((name, tree)).is_err() {
                self.fault = Some(Fault::NoMemory);
                return fields;
            }
        }
        fields
    }

    /// A list of this type.
    fn list(&mut self, inner: TypeTree) -> TypeTree {
        match self.boxed(inner) {
            Some(inner) => TypeTree::List(inner),
            None => TypeTree::Plain(Kind::Raw),
        }
    }

    /// A set of this type.
    fn set(&mut self, inner: TypeTree) -> TypeTree {
        match self.boxed(inner) {
            Some(inner) => TypeTree::Set(inner),
            None => TypeTree::Plain(Kind::Raw),
        }
    }

    /// A map of keys and values of these types.
    fn map(&mut self, key: TypeTree, value: TypeTree) -> TypeTree {
        let Some(key) = self.boxed(key) else {
            return TypeTree::Plain(Kind::Raw);
        };
        let Some(value) = self.boxed(value) else {
            return TypeTree::Plain(Kind::Raw);
        };
        TypeTree::Map(key, value)
    }

    /// The same type, with a place of its own in memory.
    fn boxed(&mut self, tree: TypeTree) -> Option<Box<TypeTree>> {
        match Box::kit_new(tree) {
            Ok(boxed) => Some(boxed),
            Err(_) => {
                self.fault = Some(Fault::NoMemory);
                None
            }
        }
    }
}
