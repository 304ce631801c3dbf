// Written by dist/erase from crates/cqlp_capture_exchanges/src/attribute.rt.
//! What requests are counted under in a summary, other than the texts of their statements.

use crate::cqlp_capture_exchanges::connection::Connection;
use crate::cqlp_capture_exchanges::end::{put_end, put_ip};
use crate::cqlp_capture_exchanges::filter::is_error;
use crate::cqlp_capture_exchanges::lines::{put_id, put_name};
use crate::cqlp_capture_exchanges::outcome::Outcome;
use crate::cqlp_capture_exchanges::reply::{Reply, error_name};
use crate::cqlp_capture_exchanges::summary_by::Attribute;
use crate::cqlp_grammar::SinkFault;
use crate::cqlp_note::{Opcode, Target};
use crate::cqlp_observer::{Kept, SeenMessage};
use crate::cqlp_text::{Pen, TextWriter, opcode_name};

/// Appends an attribute of a request on this connection, of which this came. Takes no memory.
pub(crate) fn append_attribute<W: Target>(
    attribute: Attribute,
    connection: &Connection,
    request: &SeenMessage<Kept>,
    outcome: &Outcome,
    target: &mut W,
) -> Result<(), SinkFault> {
    let mut writer = TextWriter::over(target);
    let Ok(()) = put_attribute(&mut writer, attribute, connection, request, outcome) else {
        let _ = writer.into_target();
        return Err(SinkFault);
    };
    let passed_on = writer.flush();
    let _ = writer.into_target();
    passed_on
}

/// Appends the opcode of a request and the id of its statement, as the request's line has it. Takes no memory.
pub(crate) fn append_id<W: Target>(
    opcode: Opcode,
    id: &[u8],
    is_whole: bool,
    target: &mut W,
) -> Result<(), SinkFault> {
    let mut writer = TextWriter::over(target);
    let Ok(()) = put_id_name(&mut writer, opcode, id, is_whole) else {
        let _ = writer.into_target();
        return Err(SinkFault);
    };
    let passed_on = writer.flush();
    let _ = writer.into_target();
    passed_on
}

fn put_id_name<P: Pen>(
    writer: &mut TextWriter<P>,
    opcode: Opcode,
    id: &[u8],
    is_whole: bool,
) -> Result<(), SinkFault> {
    writer.put_str(opcode_name(opcode))?;
    put_id(writer, id, is_whole)
}

fn put_attribute<P: Pen>(
    writer: &mut TextWriter<P>,
    attribute: Attribute,
    connection: &Connection,
    request: &SeenMessage<Kept>,
    outcome: &Outcome,
) -> Result<(), SinkFault> {
    match attribute {
        Attribute::Client => put_ip(writer, connection.ends.client.address),
        Attribute::Node => put_end(writer, connection.ends.node),
        Attribute::Opcode => writer.put_str(opcode_name(request.frame.header.opcode)),
        Attribute::Error => put_error(writer, outcome.reply, outcome.is_error),
    }
}

/// Takes the error of a reply, or a word where there is none.
fn put_error<P: Pen>(
    writer: &mut TextWriter<P>,
    reply: Option<Reply>,
    is_failure: bool,
) -> Result<(), SinkFault> {
    match reply {
        Some(reply) => put_reply_error(writer, reply, is_failure),
        None => writer.put(b"unanswered"),
    }
}

fn put_reply_error<P: Pen>(
    writer: &mut TextWriter<P>,
    reply: Reply,
    is_failure: bool,
) -> Result<(), SinkFault> {
    match reply {
        Reply::Error(code) => put_name(writer, error_name(code), code),
        Reply::Result(_) => writer.put_str(no_error_text(is_failure)),
        Reply::Other(opcode) => writer.put_str(no_code_text(opcode, is_failure)),
    }
}

/// What a reply is called that has no code of an error.
fn no_code_text(opcode: Opcode, is_failure: bool) -> &'static str {
    if is_error(opcode) {
        "ERROR"
    } else {
        no_error_text(is_failure)
    }
}

/// What a reply is called that is no ERROR.
fn no_error_text(is_failure: bool) -> &'static str {
    if is_failure { "cut" } else { "none" }
}
