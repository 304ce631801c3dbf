// Written by dist/erase from crates/cqlp_message/src/request_parts.rt.
//! The parts of requests.

use crate::kit_std::prelude::{String};
use crate::cqlp_message::part::{PartRef, TakesParts};
use crate::cqlp_message::request::{BatchEntry, OwnedBound, QueryParams};
use crate::cqlp_message::walk::{
    HasParts, walk_counted, walk_paging, walk_query, walk_serial, walk_statement, walk_text,
    walk_timestamp,
};
use crate::cqlp_note::Field;

impl HasParts for OwnedBound {
    fn walk<V: TakesParts>(&self, visitor: &mut V) {
        visitor.take(PartRef::Bound(Field::Value, self));
    }
}

impl HasParts for (Option<String>, OwnedBound) {
    fn walk<V: TakesParts>(&self, visitor: &mut V) {
        let (name, value) = self;
        walk_name(name, visitor);
        value.walk(visitor);
    }
}

/// Hands over the name of a value, if it has one.
fn walk_name<V: TakesParts>(name: &Option<String>, visitor: &mut V) {
    if let Some(name) = name {
        walk_text(Field::ValueName, name, visitor);
    }
}

impl HasParts for QueryParams {
    fn walk<V: TakesParts>(&self, visitor: &mut V) {
        visitor.take(PartRef::Short(Field::Consistency, self.consistency));
        visitor.take(PartRef::Byte(Field::QueryFlags, self.flags));
        self.walk_values(visitor);
        self.walk_page_size(visitor);
        walk_paging(&self.paging, visitor);
        walk_serial(self.serial, visitor);
        walk_timestamp(self.timestamp, visitor);
    }
}

impl QueryParams {
    /// Hands over the values, if there are any.
    fn walk_values<V: TakesParts>(&self, visitor: &mut V) {
        if let Some(values) = &self.values {
            walk_counted(Field::Values, values, visitor);
        }
    }

    /// Hands over the rows of a page, if they are there.
    fn walk_page_size<V: TakesParts>(&self, visitor: &mut V) {
        if let Some(rows) = self.page_size {
            visitor.take(PartRef::Int(Field::PageSize, rows));
        }
    }
}

impl HasParts for BatchEntry {
    fn walk<V: TakesParts>(&self, visitor: &mut V) {
        match self {
            BatchEntry::Text(text, values) => {
                visitor.take(PartRef::Byte(Field::EntryKind, 0));
                walk_query(text, visitor);
                walk_counted(Field::Values, values, visitor);
            }
            BatchEntry::Id(id, values) => {
                visitor.take(PartRef::Byte(Field::EntryKind, 1));
                walk_statement(id, visitor);
                walk_counted(Field::Values, values, visitor);
            }
        }
    }
}
