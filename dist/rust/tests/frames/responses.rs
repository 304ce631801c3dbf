//! The bodies of errors, events and results.

use super::words::{FromWords, Words};
use cqlp::Address;
use cqlp::frame::{ErrorExtra, Message, Metadata, Prepared, Rows, SchemaChange, SchemaOptions, ServerEvent, Spec};

/// A code, a text, and what the code adds.
pub fn error(words: &mut Words<'_>) -> Message {
    Message::Error { code: words.read(), message: words.text(), extra: words.read() }
}

/// The name of the variant, and its fields.
impl FromWords for ErrorExtra {
    fn from_words(words: &mut Words<'_>) -> ErrorExtra {
        match words.word() {
            "Unavailable" => ErrorExtra::Unavailable { consistency: words.read(), required: words.read(), alive: words.read() },
            "WriteTimeout" => ErrorExtra::WriteTimeout {
                consistency: words.read(),
                received: words.read(),
                block_for: words.read(),
                write_type: words.text(),
            },
            "ReadTimeout" => ErrorExtra::ReadTimeout {
                consistency: words.read(),
                received: words.read(),
                block_for: words.read(),
                data_present: words.byte(),
            },
            "ReadFailure" => ErrorExtra::ReadFailure {
                consistency: words.read(),
                received: words.read(),
                block_for: words.read(),
                failures: words.read(),
                data_present: words.byte(),
            },
            "FunctionFailure" => ErrorExtra::FunctionFailure { keyspace: words.text(), name: words.text(), arguments: words.list() },
            "WriteFailure" => ErrorExtra::WriteFailure {
                consistency: words.read(),
                received: words.read(),
                block_for: words.read(),
                failures: words.read(),
                write_type: words.text(),
            },
            "AlreadyExists" => ErrorExtra::AlreadyExists { keyspace: words.text(), table: words.text() },
            "Unprepared" => ErrorExtra::Unprepared { id: words.bytes() },
            "Plain" => ErrorExtra::Plain,
            other => words.bad(other),
        }
    }
}

/// The type of the event, and what it tells.
pub fn event(words: &mut Words<'_>) -> Message {
    Message::Event { event: words.text(), detail: words.read() }
}

/// The name of the variant, and its fields.
impl FromWords for ServerEvent {
    fn from_words(words: &mut Words<'_>) -> ServerEvent {
        match words.word() {
            "Node" => ServerEvent::Node { change: words.text(), address: words.read(), port: words.read() },
            "Schema" => ServerEvent::Schema(words.read()),
            "Unknown" => ServerEvent::Unknown,
            other => words.bad(other),
        }
    }
}

/// Four bytes or sixteen.
impl FromWords for Address {
    fn from_words(words: &mut Words<'_>) -> Address {
        let bytes = words.bytes();
        match bytes.len() {
            4 => Address::V4(bytes.try_into().unwrap()),
            _ => Address::V6(bytes.try_into().unwrap()),
        }
    }
}

impl FromWords for SchemaChange {
    fn from_words(words: &mut Words<'_>) -> SchemaChange {
        SchemaChange { change: words.text(), target: words.text(), options: words.read() }
    }
}

/// The name of the variant, and its fields.
impl FromWords for SchemaOptions {
    fn from_words(words: &mut Words<'_>) -> SchemaOptions {
        match words.word() {
            "Keyspace" => SchemaOptions::Keyspace(words.text()),
            "Named" => SchemaOptions::Named(words.text(), words.text()),
            "Callable" => SchemaOptions::Callable(words.text(), words.text(), words.list()),
            "Unknown" => SchemaOptions::Unknown,
            other => words.bad(other),
        }
    }
}

/// The kind of a result, and its body. A kind that is none of those has a number.
pub fn result_of(words: &mut Words<'_>) -> Message {
    match words.word() {
        "Void" => Message::Void,
        "Rows" => Message::Rows(words.read()),
        "SetKeyspace" => Message::SetKeyspace(words.text()),
        "Prepared" => Message::Prepared(words.read()),
        "Change" => Message::Change(words.read()),
        "Unknown" => Message::UnknownResult(words.read()),
        other => words.bad(other),
    }
}

impl FromWords for Metadata {
    fn from_words(words: &mut Words<'_>) -> Metadata {
        Metadata { flags: words.read(), columns: words.read(), paging: words.option(), table: words.option(), specs: words.list_option() }
    }
}

impl FromWords for Spec {
    fn from_words(words: &mut Words<'_>) -> Spec {
        Spec { table: words.option(), name: words.text(), tree: words.read() }
    }
}

impl FromWords for Rows {
    fn from_words(words: &mut Words<'_>) -> Rows {
        Rows { meta: words.read(), rows: words.read(), cells: words.list() }
    }
}

impl FromWords for Prepared {
    fn from_words(words: &mut Words<'_>) -> Prepared {
        Prepared {
            id: words.bytes(),
            flags: words.read(),
            columns: words.read(),
            keys: words.list(),
            table: words.option(),
            specs: words.list(),
            result: words.read(),
        }
    }
}
