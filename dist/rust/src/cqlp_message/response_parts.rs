// Written by dist/erase from crates/cqlp_message/src/response_parts.rt.
//! The parts of responses.

use crate::kit_std::prelude::{String, Vec};
use crate::cqlp_message::part::{PartRef, TakesParts};
use crate::cqlp_message::response::{
    ErrorExtra, Metadata, Prepared, SchemaChange, SchemaOptions, ServerEvent, Spec,
};
use crate::cqlp_message::walk::{
    HasParts, walk_each, walk_in_keyspace, walk_keys, walk_paging, walk_statement, walk_table,
    walk_text, walk_texts,
};
use crate::cqlp_note::Field;

impl HasParts for ErrorExtra {
    fn walk<V: TakesParts>(&self, visitor: &mut V) {
        match self {
            ErrorExtra::Plain => {}
            ErrorExtra::Unavailable {
                consistency,
                required,
                alive,
            } => walk_unavailable(*consistency, *required, *alive, visitor),
            ErrorExtra::WriteTimeout {
                consistency,
                received,
                block_for,
                write_type,
            } => {
                walk_replicas(*consistency, *received, *block_for, visitor);
                walk_text(Field::WriteType, write_type, visitor);
            }
            ErrorExtra::ReadTimeout {
                consistency,
                received,
                block_for,
                data_present,
            } => {
                walk_replicas(*consistency, *received, *block_for, visitor);
                visitor.take(PartRef::Byte(Field::DataPresent, *data_present));
            }
            ErrorExtra::ReadFailure {
                consistency,
                received,
                block_for,
                failures,
                data_present,
            } => {
                walk_failures(*consistency, *received, *block_for, *failures, visitor);
                visitor.take(PartRef::Byte(Field::DataPresent, *data_present));
            }
            ErrorExtra::FunctionFailure {
                keyspace,
                name,
                arguments,
            } => walk_function(keyspace, name, arguments, visitor),
            ErrorExtra::WriteFailure {
                consistency,
                received,
                block_for,
                failures,
                write_type,
            } => {
                walk_failures(*consistency, *received, *block_for, *failures, visitor);
                walk_text(Field::WriteType, write_type, visitor);
            }
            ErrorExtra::AlreadyExists { keyspace, table } => {
                walk_in_keyspace(keyspace, Field::Table, table, visitor);
            }
            ErrorExtra::Unprepared { id } => walk_statement(id, visitor),
        }
    }
}

/// Hands over how many replicas had to be alive, and how many were.
fn walk_unavailable<V: TakesParts>(consistency: u16, required: i32, alive: i32, visitor: &mut V) {
    visitor.take(PartRef::Short(Field::Consistency, consistency));
    visitor.take(PartRef::Int(Field::Required, required));
    visitor.take(PartRef::Int(Field::Alive, alive));
}

/// Hands over how many replicas have answered, how many had to, and how many failed.
fn walk_failures<V: TakesParts>(
    consistency: u16,
    received: i32,
    block_for: i32,
    failures: i32,
    visitor: &mut V,
)
{
    walk_replicas(consistency, received, block_for, visitor);
    visitor.take(PartRef::Int(Field::Failures, failures));
}

/// Hands over how many replicas have answered, and how many had to.
fn walk_replicas<V: TakesParts>(consistency: u16, received: i32, block_for: i32, visitor: &mut V) {
    visitor.take(PartRef::Short(Field::Consistency, consistency));
    visitor.take(PartRef::Int(Field::Received, received));
    visitor.take(PartRef::Int(Field::BlockFor, block_for));
}

/// Hands over the keyspace, the name and the types of the arguments of a function.
fn walk_function<V: TakesParts>(
    keyspace: &String,
    name: &String,
    arguments: &Vec<String>,
    visitor: &mut V,
)
{
    walk_in_keyspace(keyspace, Field::Name, name, visitor);
    walk_texts(Field::Arguments, Field::Argument, arguments, visitor);
}

impl HasParts for SchemaOptions {
    fn walk<V: TakesParts>(&self, visitor: &mut V) {
        match self {
            SchemaOptions::Keyspace(keyspace) => walk_text(Field::Keyspace, keyspace, visitor),
            SchemaOptions::Named(keyspace, name) => {
                walk_in_keyspace(keyspace, Field::Name, name, visitor);
            }
            SchemaOptions::Callable(keyspace, name, arguments) => {
                walk_function(keyspace, name, arguments, visitor);
            }
            SchemaOptions::Unknown => {}
        }
    }
}

impl HasParts for SchemaChange {
    fn walk<V: TakesParts>(&self, visitor: &mut V) {
        walk_text(Field::Change, &self.change, visitor);
        walk_text(Field::Target, &self.target, visitor);
        self.options.walk(visitor);
    }
}

impl HasParts for ServerEvent {
    fn walk<V: TakesParts>(&self, visitor: &mut V) {
        match self {
            ServerEvent::Node {
                change,
                address,
                port,
            } => {
                walk_text(Field::Change, change, visitor);
                visitor.take(PartRef::Inet(Field::Address, *address, *port));
            }
            ServerEvent::Schema(change) => change.walk(visitor),
            ServerEvent::Unknown => {}
        }
    }
}

impl HasParts for Spec {
    fn walk<V: TakesParts>(&self, visitor: &mut V) {
        walk_table(&self.table, visitor);
        walk_text(Field::ColumnName, &self.name, visitor);
        visitor.take(PartRef::Type(&self.tree));
    }
}

impl HasParts for Metadata {
    fn walk<V: TakesParts>(&self, visitor: &mut V) {
        self.walk_columns(visitor);
        walk_paging(&self.paging, visitor);
        walk_table(&self.table, visitor);
        self.walk_specs(visitor);
    }
}

impl Metadata {
    /// Hands over its flags, and how many columns there are.
    fn walk_columns<V: TakesParts>(&self, visitor: &mut V) {
        visitor.take(PartRef::Int(Field::MetaFlags, self.flags));
        visitor.take(PartRef::Count32(Field::Columns, self.columns as usize));
    }

    /// Hands over the columns, if they are described.
    fn walk_specs<V: TakesParts>(&self, visitor: &mut V) {
        if let Some(specs) = &self.specs {
            walk_each(specs, visitor);
        }
    }
}

impl HasParts for Prepared {
    fn walk<V: TakesParts>(&self, visitor: &mut V) {
        walk_statement(&self.id, visitor);
        self.walk_columns(visitor);
        walk_keys(&self.keys, visitor);
        self.walk_specs(visitor);
        self.result.walk(visitor);
    }
}

impl Prepared {
    /// Hands over the flags of its values, and how many there are.
    fn walk_columns<V: TakesParts>(&self, visitor: &mut V) {
        visitor.take(PartRef::Int(Field::MetaFlags, self.flags));
        visitor.take(PartRef::Count32(Field::Columns, self.columns as usize));
    }

    /// Hands over the table of all values, and the values.
    fn walk_specs<V: TakesParts>(&self, visitor: &mut V) {
        walk_table(&self.table, visitor);
        walk_each(&self.specs, visitor);
    }
}
