// Written by dist/erase from crates/cqlp_message/src/frame.rt.
//! Frames.

use crate::kit_std::prelude::{String, Vec};
use crate::cqlp_message::message::Message;

/// A frame: its header but for the length, the parts that its flags announce, and its message. Section 2 of
/// `native_protocol_v4.spec`.
///
/// It is a request or a response as its message is. A part is to be there exactly where its flag is set, and in a request
/// there is neither a tracing id nor are there warnings; where they disagree, no bytes spell the frame.
#[derive(Debug, PartialEq, Eq)]
pub struct Frame {
    /// 02 tracing and 08 warnings in a response, 04 custom payload; other bits but 01, compression, are kept.
    pub flags: u8,
    /// The stream id, which is a request's and its response's; -1 in an EVENT.
    pub stream: i16,
    /// The id of a trace, in a response alone.
    pub tracing: Option<[u8; 16]>,
    /// The server's warnings, in a response alone.
    pub warnings: Option<Vec<String>>,
    /// The custom payload: keys, and values that may be null.
    pub payload: Option<Vec<(String, Option<Vec<u8>>)>>,
    /// What the body has behind these parts. Its kind decides the header's opcode and direction.
    pub message: Message,
}
