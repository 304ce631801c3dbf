// Written by dist/erase from crates/cqlp_observer/src/message.rt.
//! The frames of a connection, as an observer sees them.

use crate::cqlp_note::{Header, Opcode};

/// A frame of one direction, by its header. Section 2 of `native_protocol_v4.spec`.
#[derive(Clone, Copy, Debug, PartialEq, Eq)]
pub struct SeenFrame {
    /// The nine bytes before the body, which are enough to pair requests and responses: stream id, opcode and length.
    pub header: Header,
    /// Where its header begins: how many bytes, and bytes of gaps, of the direction came before it.
    pub at: u64,
    /// When its first byte was captured, in nanoseconds since 1970-01-01 00:00:00 UTC, where the capture says so.
    pub begun: Option<u64>,
    /// When its last byte was captured, also where it lies in a gap whose time is known; else when the last one of its bytes was that was captured.
    pub ended: Option<u64>,
    /// Whether all bytes that its header announces were captured.
    pub extent: Extent,
}

/// Which bytes of a frame were captured.
#[derive(Clone, Copy, Debug, PartialEq, Eq)]
pub enum Extent {
    /// All of them.
    Whole,
    /// Some of them were not: they lie in a gap.
    Holed,
    /// The direction ended before the last of them, by a RST, a FIN or the end of the capture.
    Short,
}

/// A frame, and what the observer keeps of its body.
#[derive(Clone, Copy, Debug, PartialEq, Eq)]
pub struct SeenMessage<T> {
    /// The frame of the message: its header, and where and when it was captured.
    pub frame: SeenFrame,
    /// What the observer keeps of its body, as a query or the code of an error.
    pub kept: T,
}

impl<T> SeenMessage<T> {
    /// The stream id, which is a request's and its response's.
    #[inline(always)]
    pub fn stream(&self) -> i16 {
        self.frame.header.stream
    }

    /// Whether it is a request.
    #[inline(always)]
    pub fn is_request(&self) -> bool {
        !self.frame.header.response
    }

    /// Whether it is an event that the node pushed: an EVENT under a negative stream id. Section 4.2.6 of
    /// `native_protocol_v4.spec`.
    #[inline(always)]
    pub fn is_event(&self) -> bool {
        let Header {
            response,
            flags: _,
            stream,
            opcode,
            length: _,
        } = self.frame.header;
        response && opcode == Opcode::Event && stream < 0
    }

    /// Whether it and the next under its stream id are a request and its response: a request and any response, or a response and a request
    /// whose first byte was captured no later than that of the response, where both times are known.
    #[inline(always)]
    pub(crate) fn meets(&self, next: &SeenMessage<T>) -> bool {
        if self.is_request() {
            !next.is_request()
        } else {
            next.is_request() && is_no_later(next.frame.begun, self.frame.begun)
        }
    }
}

/// Whether one time is known to be no later than another.
#[inline(always)]
pub(crate) fn is_no_later(one: Option<u64>, other: Option<u64>) -> bool {
    match (one, other) {
        (Some(one), Some(other)) => one <= other,
        _ => false,
    }
}
