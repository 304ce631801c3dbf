// Written by dist/erase from crates/cqlp_capture_exchanges/src/object.rt.
//! The JSON object of what is reported of a request, a response, or both.

use crate::cqlp_capture_exchanges::bound::put_values_members_if;
use crate::cqlp_capture_exchanges::connection::Connection;
use crate::cqlp_capture_exchanges::details_object::put_details;
use crate::cqlp_capture_exchanges::error_details::error_details;
use crate::cqlp_capture_exchanges::form::ValuesShown;
use crate::cqlp_capture_exchanges::member::{
    Member, Value, consistency_or_null, flag_or_null, name_or_code, number_or_null, put_members,
    seconds_or_null, signed_or_null, utc_or_null, uuid_or_null,
};
use crate::cqlp_capture_exchanges::prepared::{Known, named};
use crate::cqlp_capture_exchanges::reply::{Reply, error_name, kind_name, message_of, reply_of};
use crate::cqlp_capture_exchanges::report::{ConnectionEnd, Report};
use crate::cqlp_capture_exchanges::span::{Span, is_whole, time_between, took};
use crate::cqlp_capture_exchanges::statement::{Statement, has, statement_of, statements_of};
use crate::cqlp_capture_exchanges::warning::{Warning, Warnings, warnings_of};
use crate::cqlp_capture_exchanges::warning_texts::put_texts_members;
use crate::cqlp_grammar::SinkFault;
use crate::cqlp_note::Target;
use crate::cqlp_observer::{Facts, SeenFrame, Kept, SeenMessage, Opening, Paired};
use crate::cqlp_text::{Buffered, Pen, TextWriter, opcode_name};

/// Takes the object of a report of this connection, in a capture whose first packet came at this time, in a line of its own, and
/// passes it on.
pub(crate) fn put_json_line<W: Target>(
    writer: &mut TextWriter<Buffered<W>>,
    known: &Known,
    shown: ValuesShown,
    first: Option<u64>,
    connection: &Connection,
    report: &Report<'_>,
) -> Result<(), SinkFault> {
    put_report(writer, known, shown, first, connection, report)?;
    writer.pass_on()
}

/// Takes the object of a report.
fn put_report<P: Pen>(
    writer: &mut TextWriter<P>,
    known: &Known,
    shown: ValuesShown,
    first: Option<u64>,
    connection: &Connection,
    report: &Report<'_>,
) -> Result<(), SinkFault> {
    match report {
        Report::Messages { paired, end } => put_paired(
            writer, known, shown, first, connection, *end, paired,
        ),
        Report::Unread { time, opening } => put_unread(writer, first, connection, *time, *opening),
    }
}

/// Takes the object of a connection that begins with no frames of version 4.
fn put_unread<P: Pen>(
    writer: &mut TextWriter<P>,
    first: Option<u64>,
    connection: &Connection,
    time: Option<u64>,
    opening: Opening,
) -> Result<(), SinkFault> {
    put_opening(writer, first, connection, time, opening)?;
    writer.put(b"}\n")
}

fn put_opening<P: Pen>(
    writer: &mut TextWriter<P>,
    first: Option<u64>,
    connection: &Connection,
    time: Option<u64>,
    opening: Opening,
) -> Result<(), SinkFault> {
    let since = time_between(first, time);
    put_members(
        writer,
        &[
            Member("{\"told\":", Value::Name("unread")),
            Member(",\"time\":", seconds_or_null(since)),
            Member(",\"utc\":", utc_or_null(time)),
            Member(",\"client\":", Value::End(connection.ends.client)),
            Member(",\"node\":", Value::End(connection.ends.node)),
            Member(",\"connection\":", Value::Number(connection.number)),
            Member(",\"protocol\":", Value::Name(protocol_name(opening))),
            Member(",\"version\":", version_or_null(opening)),
        ],
    )
}

pub(crate) fn protocol_name(opening: Opening) -> &'static str {
    match opening {
        Opening::Tls => "TLS",
        Opening::Http => "HTTP",
        Opening::Frames => "CQL",
        Opening::OtherVersion(_) => "CQL",
    }
}

pub(crate) fn version_or_null(opening: Opening) -> Value<'static> {
    match opening {
        Opening::OtherVersion(version) => Value::Number(u64::from(version)),
        Opening::Frames => Value::Null,
        Opening::Tls => Value::Null,
        Opening::Http => Value::Null,
    }
}

/// Takes the object of messages, whose connection ended so where that is why they are reported.
fn put_paired<P: Pen>(
    writer: &mut TextWriter<P>,
    known: &Known,
    shown: ValuesShown,
    first: Option<u64>,
    connection: &Connection,
    end: Option<ConnectionEnd>,
    reported: &Paired<Kept>,
) -> Result<(), SinkFault> {
    match reported {
        Paired::Exchange { request, response } => {
            put_exchange(writer, known, shown, first, connection, request, response)
        }
        Paired::Unanswered { request } => put_unanswered(
            writer, known, shown, first, connection, end, request,
        ),
        Paired::Unasked { response } => put_alone(writer, "unasked", first, connection, response),
        Paired::Event { event } => put_alone(writer, "event", first, connection, event),
    }
}

/// How long an exchange took, and how the connection of a request without a response ended.
#[derive(Clone, Copy)]
struct Last {
    time: Option<Span>,
    end: Option<ConnectionEnd>,
}

impl Last {
    /// Neither is known.
    const NONE: Last = Last {
        time: None,
        end: None,
    };
}

/// Takes the object of a request with its response.
fn put_exchange<P: Pen>(
    writer: &mut TextWriter<P>,
    known: &Known,
    shown: ValuesShown,
    first: Option<u64>,
    connection: &Connection,
    request: &SeenMessage<Kept>,
    response: &SeenMessage<Kept>,
) -> Result<(), SinkFault> {
    let last = Last {
        time: took(&request.frame, &response.frame),
        end: None,
    };
    put_place(writer, "exchange", first, connection, &request.frame)?;
    put_request(writer, known, shown, request)?;
    put_response(writer, response)?;
    put_last(writer, last)?;
    writer.put(b"}\n")
}

/// Takes the object of a request without a response, whose connection ended so where that is why.
fn put_unanswered<P: Pen>(
    writer: &mut TextWriter<P>,
    known: &Known,
    shown: ValuesShown,
    first: Option<u64>,
    connection: &Connection,
    end: Option<ConnectionEnd>,
    request: &SeenMessage<Kept>,
) -> Result<(), SinkFault> {
    let last = Last { time: None, end };
    put_place(writer, "unanswered", first, connection, &request.frame)?;
    put_request(writer, known, shown, request)?;
    put_last(writer, last)?;
    writer.put(b"}\n")
}

/// Takes the object of a response without a request, or of an event.
fn put_alone<P: Pen>(
    writer: &mut TextWriter<P>,
    reported: &str,
    first: Option<u64>,
    connection: &Connection,
    response: &SeenMessage<Kept>,
) -> Result<(), SinkFault> {
    put_place(writer, reported, first, connection, &response.frame)?;
    put_response(writer, response)?;
    put_last(writer, Last::NONE)?;
    writer.put(b"}\n")
}

/// Takes what is reported, when its frame began, and where.
fn put_place<P: Pen>(
    writer: &mut TextWriter<P>,
    reported: &str,
    first: Option<u64>,
    connection: &Connection,
    frame: &SeenFrame,
) -> Result<(), SinkFault> {
    let since = time_between(first, frame.begun);
    put_members(
        writer,
        &[
            Member("{\"told\":", Value::Name(reported)),
            Member(",\"time\":", seconds_or_null(since)),
            Member(",\"utc\":", utc_or_null(frame.begun)),
            Member(",\"client\":", Value::End(connection.ends.client)),
            Member(",\"node\":", Value::End(connection.ends.node)),
            Member(",\"connection\":", Value::Number(connection.number)),
            Member(
                ",\"stream\":",
                Value::Signed(i32::from(frame.header.stream)),
            ),
        ],
    )
}

fn put_last<P: Pen>(writer: &mut TextWriter<P>, last: Last) -> Result<(), SinkFault> {
    put_members(
        writer,
        &[
            Member(",\"took\":", seconds_or_null(last.time)),
            Member(",\"connection_end\":", end_or_null(last.end)),
        ],
    )
}

pub(crate) fn end_or_null(end: Option<ConnectionEnd>) -> Value<'static> {
    match end {
        None => Value::Null,
        Some(ConnectionEnd::Reset) => Value::Name("reset"),
        Some(ConnectionEnd::Closed) => Value::Name("closed"),
        Some(ConnectionEnd::Open) => Value::Name("open"),
    }
}

fn put_request<P: Pen>(
    writer: &mut TextWriter<P>,
    known: &Known,
    shown: ValuesShown,
    request: &SeenMessage<Kept>,
) -> Result<(), SinkFault> {
    let front = request.kept.front();
    let count = statements_of(&request.frame.header, front);
    let statement = named(known, statement_of(&request.frame.header, front));
    put_request_frame(writer, &request.frame)?;
    put_count(writer, count)?;
    put_statement(writer, request.kept.is_text_dropped(), &statement)?;
    put_values_members_if(writer, known, shown, request)?;
    put_query(writer, &request.kept.facts())
}

/// Takes how many statements a BATCH has.
fn put_count<P: Pen>(writer: &mut TextWriter<P>, count: Option<u16>) -> Result<(), SinkFault> {
    put_members(writer, &[Member(",\"statements\":", number_or_null(count))])
}

/// Takes how a request asks for it to be done.
fn put_query<P: Pen>(writer: &mut TextWriter<P>, facts: &Facts) -> Result<(), SinkFault> {
    put_members(
        writer,
        &[
            Member(",\"consistency\":", consistency_or_null(facts.consistency)),
            Member(",\"page_size\":", signed_or_null(facts.page_size)),
            Member(
                ",\"has_paging_state\":",
                flag_or_null(facts.has_paging_state),
            ),
        ],
    )
}

fn put_request_frame<P: Pen>(writer: &mut TextWriter<P>, frame: &SeenFrame) -> Result<(), SinkFault> {
    put_members(
        writer,
        &[
            Member(
                ",\"request\":",
                Value::Name(opcode_name(frame.header.opcode)),
            ),
            Member(
                ",\"request_bytes\":",
                Value::Number(9 + frame.header.length as u64),
            ),
            Member(
                ",\"request_is_whole\":",
                Value::Flag(is_whole(frame.extent)),
            ),
            Member(
                ",\"request_is_compressed\":",
                Value::Flag(has(frame.header.flags, 0x01)),
            ),
        ],
    )
}

/// Whether all of a text is there that is not there: not, where it was given up.
pub(crate) fn none_whole(is_given_up: bool) -> Value<'static> {
    if is_given_up {
        Value::Flag(false)
    } else {
        Value::Null
    }
}

/// Takes what a request asks to be done.
fn put_statement<P: Pen>(
    writer: &mut TextWriter<P>,
    is_given_up: bool,
    statement: &Option<Statement<'_>>,
) -> Result<(), SinkFault> {
    match statement {
        Some(Statement::Text { text, is_whole }) => {
            put_statement_as(
                writer,
                Value::Text(text),
                Value::Null,
                Value::Flag(*is_whole),
            )
        }
        Some(Statement::Id { id, is_whole }) => {
            put_statement_as(writer, Value::Null, Value::Hex(id), Value::Flag(*is_whole))
        }
        None => put_statement_as(writer, Value::Null, Value::Null, none_whole(is_given_up)),
    }
}

fn put_statement_as<P: Pen>(
    writer: &mut TextWriter<P>,
    text: Value<'_>,
    id: Value<'_>,
    is_whole: Value<'_>,
) -> Result<(), SinkFault> {
    put_members(
        writer,
        &[
            Member(",\"statement\":", text),
            Member(",\"id\":", id),
            Member(",\"statement_is_whole\":", is_whole),
        ],
    )
}

fn put_response<P: Pen>(
    writer: &mut TextWriter<P>,
    response: &SeenMessage<Kept>,
) -> Result<(), SinkFault> {
    let reply = reply_of(&response.frame.header, response.kept.front());
    put_response_frame(writer, &response.frame)?;
    put_reply(writer, reply)?;
    put_error(
        writer,
        response.kept.is_text_dropped(),
        reply,
        response.kept.front(),
    )?;
    put_known(writer, response)
}

/// Takes the message of an ERROR, and what is behind it.
fn put_error<P: Pen>(
    writer: &mut TextWriter<P>,
    is_given_up: bool,
    reply: Reply,
    front: &[u8],
) -> Result<(), SinkFault> {
    let message = message_of(reply, front);
    let details = error_details(reply, front);
    put_message(writer, is_given_up, &message)?;
    put_details(writer, &details)
}

/// Takes the message of an ERROR.
fn put_message<P: Pen>(
    writer: &mut TextWriter<P>,
    is_given_up: bool,
    message: &Option<Statement<'_>>,
) -> Result<(), SinkFault> {
    match message {
        Some(Statement::Text { text, is_whole }) => {
            put_message_as(writer, Value::Text(text), Value::Flag(*is_whole))
        }
        Some(Statement::Id { .. }) => {
            put_message_as(writer, Value::Null, none_whole(is_given_up))
        }
        None => put_no_message(writer, is_given_up),
    }
}

/// The same where there is none, in one go where that is known, as it mostly is.
fn put_no_message<P: Pen>(writer: &mut TextWriter<P>, is_given_up: bool) -> Result<(), SinkFault> {
    if is_given_up {
        put_message_as(writer, Value::Null, Value::Flag(false))
    } else {
        writer.put(b",\"message\":null,\"message_is_whole\":null")
    }
}

fn put_message_as<P: Pen>(
    writer: &mut TextWriter<P>,
    text: Value<'_>,
    is_whole: Value<'_>,
) -> Result<(), SinkFault> {
    put_members(
        writer,
        &[
            Member(",\"message\":", text),
            Member(",\"message_is_whole\":", is_whole),
        ],
    )
}

/// Takes what is known of a response beside that.
fn put_known<P: Pen>(
    writer: &mut TextWriter<P>,
    response: &SeenMessage<Kept>,
) -> Result<(), SinkFault> {
    let facts = response.kept.facts();
    let warnings = warnings_of(&response.frame.header, response.kept.announced());
    put_result(writer, &facts)?;
    put_warnings(writer, response.kept.is_text_dropped(), &warnings)?;
    put_tracing(writer, &facts)
}

/// Takes the warnings of a response.
fn put_warnings<P: Pen>(
    writer: &mut TextWriter<P>,
    is_given_up: bool,
    warnings: &Warnings<'_>,
) -> Result<(), SinkFault> {
    match warnings.split_first() {
        Some((first, others)) => put_known_warnings(writer, &first, &others),
        None => put_no_warning(writer, is_given_up),
    }
}

fn put_known_warnings<P: Pen>(
    writer: &mut TextWriter<P>,
    first: &Warning<'_>,
    others: &Warnings<'_>,
) -> Result<(), SinkFault> {
    put_warning_as(writer, Value::Text(first.text), Value::Flag(first.is_whole))?;
    put_texts_members(writer, first, others)
}

/// The same where there is none, in one go where that is known, as it mostly is.
fn put_no_warning<P: Pen>(writer: &mut TextWriter<P>, is_given_up: bool) -> Result<(), SinkFault> {
    if is_given_up {
        put_warning_as(writer, Value::Null, Value::Flag(false))
    } else {
        writer.put(b",\"warning\":null,\"warning_is_whole\":null")
    }
}

fn put_warning_as<P: Pen>(
    writer: &mut TextWriter<P>,
    text: Value<'_>,
    is_whole: Value<'_>,
) -> Result<(), SinkFault> {
    put_members(
        writer,
        &[
            Member(",\"warning\":", text),
            Member(",\"warning_is_whole\":", is_whole),
        ],
    )
}

fn put_tracing<P: Pen>(writer: &mut TextWriter<P>, facts: &Facts) -> Result<(), SinkFault> {
    if facts.trace_id.is_none() {
        return writer.put(b",\"tracing_id\":null");
    }
    put_members(
        writer,
        &[Member(",\"tracing_id\":", uuid_or_null(facts.trace_id))],
    )
}

/// Takes what is known of a result, and how many warnings a response has.
fn put_result<P: Pen>(writer: &mut TextWriter<P>, facts: &Facts) -> Result<(), SinkFault> {
    put_members(
        writer,
        &[
            Member(",\"rows\":", signed_or_null(facts.rows)),
            Member(",\"columns\":", signed_or_null(facts.columns)),
            Member(",\"has_more_pages\":", flag_or_null(facts.has_more_pages)),
            Member(",\"warnings\":", number_or_null(facts.warnings)),
        ],
    )
}

fn put_response_frame<P: Pen>(writer: &mut TextWriter<P>, frame: &SeenFrame) -> Result<(), SinkFault> {
    put_members(
        writer,
        &[
            Member(
                ",\"response\":",
                Value::Name(opcode_name(frame.header.opcode)),
            ),
            Member(
                ",\"response_bytes\":",
                Value::Number(9 + frame.header.length as u64),
            ),
            Member(
                ",\"response_is_whole\":",
                Value::Flag(is_whole(frame.extent)),
            ),
            Member(
                ",\"response_is_compressed\":",
                Value::Flag(has(frame.header.flags, 0x01)),
            ),
        ],
    )
}

/// Takes what a response is.
fn put_reply<P: Pen>(writer: &mut TextWriter<P>, reply: Reply) -> Result<(), SinkFault> {
    match reply {
        Reply::Result(kind) => {
            put_reply_as(writer, name_or_code(kind_name(kind), kind), Value::Null)
        }
        Reply::Error(code) => {
            put_reply_as(writer, Value::Null, name_or_code(error_name(code), code))
        }
        Reply::Other(_) => put_reply_as(writer, Value::Null, Value::Null),
    }
}

fn put_reply_as<P: Pen>(
    writer: &mut TextWriter<P>,
    kind: Value<'_>,
    error: Value<'_>,
) -> Result<(), SinkFault> {
    put_members(
        writer,
        &[Member(",\"result\":", kind), Member(",\"error\":", error)],
    )
}
