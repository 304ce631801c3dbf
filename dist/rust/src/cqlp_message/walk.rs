// Written by dist/erase from crates/cqlp_message/src/walk.rt.
//! What has parts, and parts that come again.

use crate::kit_std::prelude::{String, Vec};
use crate::cqlp_message::part::{PartRef, TakesParts};
use crate::cqlp_note::Field;

/// What has parts in a frame.
pub trait HasParts {
    /// Hands its parts over, in order.
    fn walk<V: TakesParts>(&self, visitor: &mut V);
}

/// Hands the parts of each item over.
pub fn walk_each<T: HasParts, V: TakesParts>(items: &[T], visitor: &mut V) {
    for item in items {
        item.walk(visitor);
    }
}

/// Hands over a \[short\] that counts the items, and the parts of each.
pub fn walk_counted<T: HasParts, V: TakesParts>(field: Field, items: &Vec<T>, visitor: &mut V) {
    visitor.take(PartRef::Count16(field, items.len()));
    walk_each(items, visitor);
}

/// Hands over a \[string\] of each text.
fn walk_each_text<V: TakesParts>(field: Field, texts: &[String], visitor: &mut V) {
    for text in texts {
        walk_text(field, text, visitor);
    }
}

/// Hands over a \[string list\].
pub fn walk_texts<V: TakesParts>(list: Field, item: Field, texts: &Vec<String>, visitor: &mut V) {
    visitor.take(PartRef::Count16(list, texts.len()));
    walk_each_text(item, texts, visitor);
}

/// Hands over a \[string\].
pub fn walk_text<V: TakesParts>(field: Field, text: &String, visitor: &mut V) {
    visitor.take(PartRef::Text(field, text.as_str()));
}

/// Hands over a keyspace, and the name of what is in it.
pub fn walk_in_keyspace<V: TakesParts>(
    keyspace: &String,
    field: Field,
    name: &String,
    visitor: &mut V,
)
{
    walk_text(Field::Keyspace, keyspace, visitor);
    walk_text(field, name, visitor);
}

/// Hands over the text of a query.
pub fn walk_query<V: TakesParts>(text: &String, visitor: &mut V) {
    visitor.take(PartRef::LongText(Field::Query, text.as_str()));
}

/// Hands over the id of a prepared statement.
pub fn walk_statement<V: TakesParts>(id: &Vec<u8>, visitor: &mut V) {
    visitor.take(PartRef::ShortBytes(Field::StatementId, id.as_slice()));
}

/// Hands over \[bytes\].
pub fn walk_bytes<V: TakesParts>(field: Field, bytes: &Option<Vec<u8>>, visitor: &mut V) {
    match bytes {
        Some(bytes) => visitor.take(PartRef::Bytes(field, Some(bytes.as_slice()))),
        None => visitor.take(PartRef::Bytes(field, None)),
    }
}

/// Hands over a paging state, if there is one.
pub fn walk_paging<V: TakesParts>(paging: &Option<Option<Vec<u8>>>, visitor: &mut V) {
    if let Some(state) = paging {
        walk_bytes(Field::PagingState, state, visitor);
    }
}

/// Hands over a serial consistency, if there is one.
pub fn walk_serial<V: TakesParts>(serial: Option<u16>, visitor: &mut V) {
    if let Some(consistency) = serial {
        visitor.take(PartRef::Short(Field::SerialConsistency, consistency));
    }
}

/// Hands over a default timestamp, if there is one.
pub fn walk_timestamp<V: TakesParts>(timestamp: Option<i64>, visitor: &mut V) {
    if let Some(microseconds) = timestamp {
        visitor.take(PartRef::Long(Field::Timestamp, microseconds));
    }
}

/// Hands over a keyspace and a table, if they are there.
pub fn walk_table<V: TakesParts>(table: &Option<(String, String)>, visitor: &mut V) {
    if let Some((keyspace, table)) = table {
        walk_in_keyspace(keyspace, Field::Table, table, visitor);
    }
}

/// Hands over the number of the values of a partition key, and each.
pub fn walk_keys<V: TakesParts>(keys: &Vec<u16>, visitor: &mut V) {
    visitor.take(PartRef::Count32(Field::Keys, keys.len()));
    walk_each_key(keys, visitor);
}

/// Hands over each value of a partition key.
fn walk_each_key<V: TakesParts>(keys: &[u16], visitor: &mut V) {
    for key in keys {
        visitor.take(PartRef::Short(Field::KeyIndex, *key));
    }
}
