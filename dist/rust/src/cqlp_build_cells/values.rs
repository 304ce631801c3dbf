// Written by dist/erase from crates/cqlp_build_cells/src/values.rt.
//! Values, of the events that are held.

use crate::kit_std::prelude::{KitVec, String, Vec};
use crate::cqlp_build_cells::held::{CellEvents, Fault};
use crate::cqlp_build_cells::step::Step;
use crate::cqlp_kind::Kind;
use crate::cqlp_type::TypeTree;
use crate::cqlp_value::{Atom, Value, fits};

/// The most items that a count says.
const MOST: u32 = i32::MAX as u32;

impl CellEvents {
    /// Takes a value of this type, with this many values around it. It calls itself as deep as the type is nested.
    pub(crate) fn value(&mut self, level: usize, tree: &TypeTree) -> Value {
        match self.next(level) {
            Some(Step::Null) => Value::Null,
            Some(Step::Empty) => Value::Empty,
            Some(Step::Leaf(atom)) => self.scalar(atom, tree),
            Some(Step::Enter(kind, count)) => self.inside(level, tree, kind, count),
            Some(Step::Leave(_)) => self.none(),
            None => self.none(),
        }
    }

    /// No value.
    fn none(&mut self) -> Value {
        self.refuse(Fault::NoValue);
        Value::Null
    }

    /// Takes what comes after the first event of a value with items, where that says this kind and this many.
    fn inside(&mut self, level: usize, tree: &TypeTree, kind: Kind, count: u32) -> Value {
        match tree {
            TypeTree::List(inner) => {
                self.check(is_counted(kind, Kind::List, count));
                Value::List(self.items(level, inner, count))
            }
            TypeTree::Set(inner) => {
                self.check(is_counted(kind, Kind::Set, count));
                Value::Set(self.items(level, inner, count))
            }
            TypeTree::Map(keys, values) => {
                self.check(is_counted(kind, Kind::Map, count));
                Value::Map(self.pairs(level, keys, values, count))
            }
            TypeTree::Tuple(types) => {
                self.check(has_types(kind, Kind::Tuple, count, types.len()));
                let items = self.types(level, types);
                self.check(has_some(&items));
                Value::Tuple(items)
            }
            TypeTree::Udt { fields, .. } => {
                self.check(has_types(kind, Kind::Udt, count, fields.len()));
                let items = self.fields(level, fields);
                self.check(has_some(&items));
                Value::Udt(items)
            }
            TypeTree::Plain(_) => self.none(),
            TypeTree::Custom(_) => self.none(),
        }
    }

    /// A scalar, if it is one of this type.
    fn scalar(&mut self, atom: Atom, tree: &TypeTree) -> Value {
        let value = Value::Leaf(atom);
        self.check(fits(&value, Some(tree)));
        value
    }

    /// Takes this many values of this type, and then the end of the value around them.
    fn items(&mut self, level: usize, inner: &TypeTree, count: u32) -> Vec<Value> {
        let mut items = Vec::new();
        for _ in 0..count {
            let item = self.value(level + 1, inner);
            if self.fault.is_some() {
                return items;
            }
            if items.kit_push(item).is_err() {
                self.fault = Some(Fault::NoMemory);
                return items;
            }
        }
        self.leave(level, count as usize);
        items
    }

    /// Takes this many pairs of these types, and then the end of the map.
    fn pairs(
        &mut self,
        level: usize,
        keys: &TypeTree,
        values: &TypeTree,
        count: u32,
    ) -> Vec<(Value, Value)> {
        let mut pairs = Vec::new();
        for _ in 0..count {
            let key = self.value(level + 1, keys);
            let value = self.value(level + 1, values);
            if self.fault.is_some() {
                return pairs;
            }
            if pairs.kit_push((key, value)).is_err() {
                self.fault = Some(Fault::NoMemory);
                return pairs;
            }
        }
        self.leave(level, count as usize);
        pairs
    }

    /// Takes the first fields of a tuple of these types, and then its end.
    fn types(&mut self, level: usize, types: &[TypeTree]) -> Vec<Value> {
        let mut items = Vec::new();
        for tree in types {
            if self.is_at_leave() {
                self.leave(level, items.len());
                return items;
            }
            let item = self.value(level + 1, tree);
            if self.fault.is_some() {
                return items;
            }
            if items.kit_push(item).is_err() {
                self.fault = Some(Fault::NoMemory);
                return items;
            }
        }
        self.leave(level, items.len());
        items
    }

    /// Takes the first fields of a user-defined type of these types, and then its end.
    fn fields(&mut self, level: usize, fields: &[(String, TypeTree)]) -> Vec<Value> {
        let mut items = Vec::new();
        for (_, tree) in fields {
            if self.is_at_leave() {
                self.leave(level, items.len());
                return items;
            }
            let item = self.value(level + 1, tree);
            if self.fault.is_some() {
                return items;
            }
            if items.kit_push(item).is_err() {
                self.fault = Some(Fault::NoMemory);
                return items;
            }
        }
        self.leave(level, items.len());
        items
    }
}

/// Whether it is this kind, and a count says so many items.
fn is_counted(kind: Kind, of: Kind, count: u32) -> bool {
    kind == of && count <= MOST
}

/// Whether it is this kind, with this many types of items.
fn has_types(kind: Kind, of: Kind, count: u32, len: usize) -> bool {
    kind == of && count as usize == len
}

/// Whether there is a field.
fn has_some(items: &[Value]) -> bool {
    !items.is_empty()
}
