// Written by dist/erase from crates/cqlp_message/src/message_parts.rt.
//! The parts of messages and of frames.

use crate::kit_std::prelude::{String, Vec};
use crate::cqlp_message::frame::Frame;
use crate::cqlp_message::message::Message;
use crate::cqlp_message::part::{PartRef, TakesParts};
use crate::cqlp_message::walk::{
    HasParts, walk_bytes, walk_counted, walk_query, walk_serial, walk_statement, walk_text,
    walk_texts, walk_timestamp,
};
use crate::cqlp_grammar::result_kind as kinds;
use crate::cqlp_note::{Field};

impl HasParts for (String, String) {
    fn walk<V: TakesParts>(&self, visitor: &mut V) {
        let (key, value) = self;
        walk_text(Field::OptionKey, key, visitor);
        walk_text(Field::OptionValue, value, visitor);
    }
}

impl HasParts for (String, Vec<String>) {
    fn walk<V: TakesParts>(&self, visitor: &mut V) {
        let (key, values) = self;
        walk_text(Field::OptionKey, key, visitor);
        walk_texts(Field::OptionValues, Field::OptionValue, values, visitor);
    }
}

impl HasParts for (String, Option<Vec<u8>>) {
    fn walk<V: TakesParts>(&self, visitor: &mut V) {
        let (key, value) = self;
        walk_text(Field::PayloadKey, key, visitor);
        walk_bytes(Field::PayloadValue, value, visitor);
    }
}

impl HasParts for Message {
    fn walk<V: TakesParts>(&self, visitor: &mut V) {
        match self {
            Message::Options | Message::Ready => {}
            Message::Startup(options) => walk_counted(Field::Options, options, visitor),
            Message::Query { text, params } => {
                walk_query(text, visitor);
                params.walk(visitor);
            }
            Message::Prepare(text) => walk_query(text, visitor),
            Message::Execute { id, params } => {
                walk_statement(id, visitor);
                params.walk(visitor);
            }
            Message::Batch {
                kind,
                entries,
                consistency,
                flags,
                serial,
                timestamp,
            } => {
                visitor.take(PartRef::Byte(Field::BatchType, *kind));
                walk_counted(Field::Entries, entries, visitor);
                walk_batch_flags(*consistency, *flags, visitor);
                walk_serial(*serial, visitor);
                walk_timestamp(*timestamp, visitor);
            }
            Message::Register(types) => {
                walk_texts(Field::EventTypes, Field::EventType, types, visitor);
            }
            Message::Error {
                code,
                message,
                extra,
            } => {
                visitor.take(PartRef::Int(Field::ErrorCode, *code));
                walk_text(Field::Message, message, visitor);
                extra.walk(visitor);
            }
            Message::Authenticate(class) => walk_text(Field::Class, class, visitor),
            Message::Supported(options) => walk_counted(Field::Options, options, visitor),
            Message::Void => walk_kind(kinds::VOID as i32, visitor),
            Message::SetKeyspace(keyspace) => {
                walk_kind(kinds::SET_KEYSPACE as i32, visitor);
                walk_text(Field::Keyspace, keyspace, visitor);
            }
            Message::Rows(page) => walk_result(kinds::ROWS as i32, page, visitor),
            Message::Prepared(statement) => walk_result(kinds::PREPARED as i32, statement, visitor),
            Message::Change(change) => walk_result(kinds::SCHEMA_CHANGE as i32, change, visitor),
            Message::UnknownResult(kind) => walk_kind(*kind, visitor),
            Message::Event { event, detail } => {
                walk_text(Field::EventType, event, visitor);
                detail.walk(visitor);
            }
            Message::AuthResponse(token)
            | Message::AuthChallenge(token)
            | Message::AuthSuccess(token) => walk_bytes(Field::Token, token, visitor),
        }
    }
}

/// Hands over the consistency and the flags of a batch.
fn walk_batch_flags<V: TakesParts>(consistency: u16, flags: u8, visitor: &mut V) {
    visitor.take(PartRef::Short(Field::Consistency, consistency));
    visitor.take(PartRef::Byte(Field::BatchFlags, flags));
}

/// Hands over the kind of a result, and the parts of what it holds.
fn walk_result<T: HasParts, V: TakesParts>(kind: i32, held: &T, visitor: &mut V) {
    walk_kind(kind, visitor);
    held.walk(visitor);
}

/// Hands over the kind of a result.
fn walk_kind<V: TakesParts>(kind: i32, visitor: &mut V) {
    visitor.take(PartRef::Int(Field::ResultKind, kind));
}

impl Frame {
    /// Hands over the parts after its header, in order.
    pub fn walk<V: TakesParts>(&self, visitor: &mut V) {
        self.walk_announced(visitor);
        self.message.walk(visitor);
    }

    /// Hands over the parts before its message.
    fn walk_announced<V: TakesParts>(&self, visitor: &mut V) {
        self.walk_tracing(visitor);
        self.walk_warnings(visitor);
        self.walk_payload(visitor);
    }

    /// Hands over the id of a trace, if there is one.
    fn walk_tracing<V: TakesParts>(&self, visitor: &mut V) {
        if let Some(id) = &self.tracing {
            visitor.take(PartRef::Uuid(Field::TraceId, id));
        }
    }

    /// Hands over the warnings, if there are any.
    fn walk_warnings<V: TakesParts>(&self, visitor: &mut V) {
        if let Some(warnings) = &self.warnings {
            walk_texts(Field::Warnings, Field::Warning, warnings, visitor);
        }
    }

    /// Hands over the custom payload, if there is one.
    fn walk_payload<V: TakesParts>(&self, visitor: &mut V) {
        if let Some(items) = &self.payload {
            walk_counted(Field::PayloadItems, items, visitor);
        }
    }
}
