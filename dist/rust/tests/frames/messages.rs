//! Frames, and the bodies of requests.

use super::responses::{error, event, result_of};
use super::words::{FromWords, Words};
use cqlp::frame::{BatchEntry, Frame, Message, OwnedBound, QueryParams};

impl FromWords for Frame {
    fn from_words(words: &mut Words<'_>) -> Frame {
        Frame {
            flags: words.byte(),
            stream: words.read(),
            tracing: words.option(),
            warnings: words.list_option(),
            payload: words.list_option(),
            message: words.read(),
        }
    }
}

/// The name of the opcode, and the body.
impl FromWords for Message {
    fn from_words(words: &mut Words<'_>) -> Message {
        match words.word() {
            "STARTUP" => Message::Startup(words.list()),
            "OPTIONS" => Message::Options,
            "QUERY" => Message::Query { text: words.text(), params: words.read() },
            "PREPARE" => Message::Prepare(words.text()),
            "EXECUTE" => Message::Execute { id: words.bytes(), params: words.read() },
            "BATCH" => batch(words),
            "REGISTER" => Message::Register(words.list()),
            "AUTH_RESPONSE" => Message::AuthResponse(words.read()),
            "ERROR" => error(words),
            "READY" => Message::Ready,
            "AUTHENTICATE" => Message::Authenticate(words.text()),
            "SUPPORTED" => Message::Supported(words.list()),
            "RESULT" => result_of(words),
            "EVENT" => event(words),
            "AUTH_CHALLENGE" => Message::AuthChallenge(words.read()),
            "AUTH_SUCCESS" => Message::AuthSuccess(words.read()),
            other => words.bad(other),
        }
    }
}

fn batch(words: &mut Words<'_>) -> Message {
    Message::Batch {
        kind: words.byte(),
        entries: words.list(),
        consistency: words.read(),
        flags: words.byte(),
        serial: words.option(),
        timestamp: words.option(),
    }
}

/// `id` and an id, or a text; and values.
impl FromWords for BatchEntry {
    fn from_words(words: &mut Words<'_>) -> BatchEntry {
        if words.accept("id") { BatchEntry::Id(words.bytes(), words.list()) } else { BatchEntry::Text(words.text(), words.list()) }
    }
}

/// `null`, `unset`, or bytes.
impl FromWords for OwnedBound {
    fn from_words(words: &mut Words<'_>) -> OwnedBound {
        if words.accept("null") {
            OwnedBound::Null
        } else if words.accept("unset") {
            OwnedBound::Unset
        } else {
            OwnedBound::Bytes(words.bytes())
        }
    }
}

impl FromWords for QueryParams {
    fn from_words(words: &mut Words<'_>) -> QueryParams {
        QueryParams {
            consistency: words.read(),
            flags: words.byte(),
            values: words.list_option(),
            page_size: words.option(),
            paging: words.option(),
            serial: words.option(),
            timestamp: words.option(),
        }
    }
}
