// Written by dist/erase from crates/cqlp_capture_exchanges/src/csv_record.rt.
//! The record of CSV of what is reported of a request, a response, or both.

use crate::cqlp_capture_exchanges::connection::Connection;
use crate::cqlp_capture_exchanges::csv_field::put_fields;
use crate::cqlp_capture_exchanges::intervals::note_outcome;
use crate::cqlp_capture_exchanges::member::{
    Value, consistency_or_null, flag_or_null, name_or_code, number_or_null, seconds_or_null,
    signed_or_null, utc_or_null, uuid_or_null,
};
use crate::cqlp_capture_exchanges::object::{end_or_null, none_whole, protocol_name, version_or_null};
use crate::cqlp_capture_exchanges::outcome::Outcome;
use crate::cqlp_capture_exchanges::prepared::{Known, named};
use crate::cqlp_capture_exchanges::reply::{Reply, error_name, kind_name, message_of, reply_of};
use crate::cqlp_capture_exchanges::report::{ConnectionEnd, Report};
use crate::cqlp_capture_exchanges::span::{Span, is_whole, time_between, took};
use crate::cqlp_capture_exchanges::statement::{Statement, has, statement_of, statements_of};
use crate::cqlp_capture_exchanges::warning::{Warning, Warnings, warnings_of};
use crate::cqlp_capture_exchanges::warning_texts::put_texts_fields;
use crate::cqlp_capture_summary::Summary;
use crate::cqlp_grammar::SinkFault;
use crate::cqlp_json::put_word;
use crate::cqlp_note::Target;
use crate::cqlp_observer::{Facts, SeenFrame, Kept, SeenMessage, Opening, Paired};
use crate::cqlp_text::{Buffered, Pen, TextWriter, opcode_name};

/// The names of the fields.
const NAMES: &str =
    "told,time,utc,client,node,connection,stream,request,request_bytes,request_is_whole,request_is_compressed,statements,\
    statement,id,statement_is_whole,consistency,page_size,has_paging_state,response,response_bytes,response_is_whole,\
    response_is_compressed,result,error,message,message_is_whole,rows,columns,has_more_pages,warnings,warning,\
    warning_is_whole,warning_texts,warning_texts_are_whole,tracing_id,took,connection_end,protocol,version\r\n";

/// In place of the fields of a request, of a response, and of all between a connection's number and its protocol.
const NO_REQUEST: &[u8] = b",,,,,,,,,,,";

const NO_RESPONSE: &[u8] = b",,,,,,,,,,,,,,,,,";

const NO_MESSAGE: &[u8] = b",,,,,,,,,,,,,,,,,,,,,,,,,,,,,,,";

/// Takes the record of a report of this connection, in a capture whose first packet came at this time, behind one with the names of the fields if it is
/// the first, and passes it on.
pub(crate) fn put_csv<W: Target>(
    writer: &mut TextWriter<Buffered<W>>,
    known: &Known,
    first: Option<u64>,
    summary: &Summary,
    connection: &Connection,
    report: &Report<'_>,
) -> Result<(), SinkFault> {
    put_text(writer, known, first, summary, connection, report)?;
    writer.pass_on()
}

/// Takes the record with the names of the fields, if there is no other, and passes it on.
pub(crate) fn put_names<W: Target>(
    writer: &mut TextWriter<Buffered<W>>,
    summary: &Summary,
) -> Result<(), SinkFault> {
    put_names_if_first(writer, summary)?;
    writer.pass_on()
}

/// Counts a record.
pub(crate) fn note_record(summary: &mut Summary) {
    let outcome = Outcome {
        is_answered: true,
        reply: None,
        is_error: false,
        rows: 0,
        bytes: 0,
        took: None,
        at: None,
    };
    note_outcome(summary, 1, &outcome);
}

fn put_text<P: Pen>(
    writer: &mut TextWriter<P>,
    known: &Known,
    first: Option<u64>,
    summary: &Summary,
    connection: &Connection,
    report: &Report<'_>,
) -> Result<(), SinkFault> {
    put_names_if_first(writer, summary)?;
    put_record(writer, known, first, connection, report)
}

fn put_names_if_first<P: Pen>(
    writer: &mut TextWriter<P>,
    summary: &Summary,
) -> Result<(), SinkFault> {
    if summary.has_no_others() {
        writer.put_str(NAMES)
    } else {
        writer.put(b"")
    }
}

/// Takes the record of a report.
fn put_record<P: Pen>(
    writer: &mut TextWriter<P>,
    known: &Known,
    first: Option<u64>,
    connection: &Connection,
    report: &Report<'_>,
) -> Result<(), SinkFault> {
    match report {
        Report::Messages { paired, end } => {
            put_paired(writer, known, first, connection, *end, paired)
        }
        Report::Unread { time, opening } => put_unread(writer, first, connection, *time, *opening),
    }
}

/// Takes the record of a connection that begins with no frames of version 4.
fn put_unread<P: Pen>(
    writer: &mut TextWriter<P>,
    first: Option<u64>,
    connection: &Connection,
    time: Option<u64>,
    opening: Opening,
) -> Result<(), SinkFault> {
    put_where(writer, "unread", first, connection, time)?;
    writer.put(NO_MESSAGE)?;
    put_protocol(writer, opening)?;
    writer.put(b"\r\n")
}

fn put_protocol<P: Pen>(writer: &mut TextWriter<P>, opening: Opening) -> Result<(), SinkFault> {
    put_fields(
        writer,
        &[
            Value::Name(protocol_name(opening)),
            version_or_null(opening),
        ],
    )
}

/// Takes the record of messages, whose connection ended so where that is why they are reported.
fn put_paired<P: Pen>(
    writer: &mut TextWriter<P>,
    known: &Known,
    first: Option<u64>,
    connection: &Connection,
    end: Option<ConnectionEnd>,
    reported: &Paired<Kept>,
) -> Result<(), SinkFault> {
    match reported {
        Paired::Exchange { request, response } => {
            put_exchange(writer, known, first, connection, request, response)
        }
        Paired::Unanswered { request } => {
            put_unanswered(writer, known, first, connection, end, request)
        }
        Paired::Unasked { response } => put_alone(writer, "unasked", first, connection, response),
        Paired::Event { event } => put_alone(writer, "event", first, connection, event),
    }
}

fn put_exchange<P: Pen>(
    writer: &mut TextWriter<P>,
    known: &Known,
    first: Option<u64>,
    connection: &Connection,
    request: &SeenMessage<Kept>,
    response: &SeenMessage<Kept>,
) -> Result<(), SinkFault> {
    let took = took(&request.frame, &response.frame);
    put_place(writer, "exchange", first, connection, &request.frame)?;
    put_request(writer, known, request)?;
    put_response(writer, response)?;
    put_last(writer, took, None)
}

fn put_unanswered<P: Pen>(
    writer: &mut TextWriter<P>,
    known: &Known,
    first: Option<u64>,
    connection: &Connection,
    end: Option<ConnectionEnd>,
    request: &SeenMessage<Kept>,
) -> Result<(), SinkFault> {
    put_place(writer, "unanswered", first, connection, &request.frame)?;
    put_request(writer, known, request)?;
    writer.put(NO_RESPONSE)?;
    put_last(writer, None, end)
}

/// Takes the record of a response without a request, or of an event.
fn put_alone<P: Pen>(
    writer: &mut TextWriter<P>,
    reported: &str,
    first: Option<u64>,
    connection: &Connection,
    response: &SeenMessage<Kept>,
) -> Result<(), SinkFault> {
    put_place(writer, reported, first, connection, &response.frame)?;
    writer.put(NO_REQUEST)?;
    put_response(writer, response)?;
    put_last(writer, None, None)
}

/// Takes what is reported, when its frame began, and where.
fn put_place<P: Pen>(
    writer: &mut TextWriter<P>,
    reported: &str,
    first: Option<u64>,
    connection: &Connection,
    frame: &SeenFrame,
) -> Result<(), SinkFault> {
    put_where(writer, reported, first, connection, frame.begun)?;
    put_stream(writer, frame)
}

fn put_where<P: Pen>(
    writer: &mut TextWriter<P>,
    reported: &str,
    first: Option<u64>,
    connection: &Connection,
    time: Option<u64>,
) -> Result<(), SinkFault> {
    put_word(reported, writer)?;
    put_where_fields(writer, first, connection, time)
}

fn put_where_fields<P: Pen>(
    writer: &mut TextWriter<P>,
    first: Option<u64>,
    connection: &Connection,
    time: Option<u64>,
) -> Result<(), SinkFault> {
    let since = time_between(first, time);
    put_fields(
        writer,
        &[
            seconds_or_null(since),
            utc_or_null(time),
            Value::End(connection.ends.client),
            Value::End(connection.ends.node),
            Value::Number(connection.number),
        ],
    )
}

fn put_stream<P: Pen>(writer: &mut TextWriter<P>, frame: &SeenFrame) -> Result<(), SinkFault> {
    put_fields(writer, &[Value::Signed(i32::from(frame.header.stream))])
}

/// Takes the end of a record: how long an exchange took, or how the connection of a request without a response ended.
fn put_last<P: Pen>(
    writer: &mut TextWriter<P>,
    time: Option<Span>,
    end: Option<ConnectionEnd>,
) -> Result<(), SinkFault> {
    put_last_fields(writer, time, end)?;
    writer.put(b",,\r\n")
}

fn put_last_fields<P: Pen>(
    writer: &mut TextWriter<P>,
    time: Option<Span>,
    end: Option<ConnectionEnd>,
) -> Result<(), SinkFault> {
    put_fields(writer, &[seconds_or_null(time), end_or_null(end)])
}

fn put_request<P: Pen>(
    writer: &mut TextWriter<P>,
    known: &Known,
    request: &SeenMessage<Kept>,
) -> Result<(), SinkFault> {
    let front = request.kept.front();
    let count = statements_of(&request.frame.header, front);
    let statement = named(known, statement_of(&request.frame.header, front));
    put_frame(writer, &request.frame)?;
    put_count(writer, count)?;
    put_statement(writer, request.kept.is_text_dropped(), &statement)?;
    put_query(writer, &request.kept.facts())
}

fn put_frame<P: Pen>(writer: &mut TextWriter<P>, frame: &SeenFrame) -> Result<(), SinkFault> {
    put_fields(
        writer,
        &[
            Value::Name(opcode_name(frame.header.opcode)),
            Value::Number(9 + frame.header.length as u64),
            Value::Flag(is_whole(frame.extent)),
            Value::Flag(has(frame.header.flags, 0x01)),
        ],
    )
}

/// Takes how many statements a BATCH has.
fn put_count<P: Pen>(writer: &mut TextWriter<P>, count: Option<u16>) -> Result<(), SinkFault> {
    put_fields(writer, &[number_or_null(count)])
}

/// Takes what a request asks to be done.
fn put_statement<P: Pen>(
    writer: &mut TextWriter<P>,
    is_given_up: bool,
    statement: &Option<Statement<'_>>,
) -> Result<(), SinkFault> {
    match statement {
        Some(Statement::Text { text, is_whole }) => put_fields(
            writer,
            &[Value::Text(text), Value::Null, Value::Flag(*is_whole)],
        ),
        Some(Statement::Id { id, is_whole }) => put_fields(
            writer,
            &[Value::Null, Value::Hex(id), Value::Flag(*is_whole)],
        ),
        None => put_fields(writer, &[Value::Null, Value::Null, none_whole(is_given_up)]),
    }
}

/// Takes how a request asks for it to be done.
fn put_query<P: Pen>(writer: &mut TextWriter<P>, facts: &Facts) -> Result<(), SinkFault> {
    put_fields(
        writer,
        &[
            consistency_or_null(facts.consistency),
            signed_or_null(facts.page_size),
            flag_or_null(facts.has_paging_state),
        ],
    )
}

fn put_response<P: Pen>(
    writer: &mut TextWriter<P>,
    response: &SeenMessage<Kept>,
) -> Result<(), SinkFault> {
    let front = response.kept.front();
    let reply = reply_of(&response.frame.header, front);
    let message = message_of(reply, front);
    put_frame(writer, &response.frame)?;
    put_reply(writer, reply)?;
    put_message(writer, response.kept.is_text_dropped(), &message)?;
    put_known(writer, response)
}

/// Takes what a response is.
fn put_reply<P: Pen>(writer: &mut TextWriter<P>, reply: Reply) -> Result<(), SinkFault> {
    match reply {
        Reply::Result(kind) => {
            put_fields(writer, &[name_or_code(kind_name(kind), kind), Value::Null])
        }
        Reply::Error(code) => {
            put_fields(writer, &[Value::Null, name_or_code(error_name(code), code)])
        }
        Reply::Other(_) => put_fields(writer, &[Value::Null, Value::Null]),
    }
}

/// Takes the message of an ERROR.
fn put_message<P: Pen>(
    writer: &mut TextWriter<P>,
    is_given_up: bool,
    message: &Option<Statement<'_>>,
) -> Result<(), SinkFault> {
    match message {
        Some(Statement::Text { text, is_whole }) => {
            put_fields(writer, &[Value::Text(text), Value::Flag(*is_whole)])
        }
        Some(Statement::Id { .. }) => {
            put_fields(writer, &[Value::Null, none_whole(is_given_up)])
        }
        None => put_fields(writer, &[Value::Null, none_whole(is_given_up)]),
    }
}

/// Takes what is known of a response beside that.
fn put_known<P: Pen>(
    writer: &mut TextWriter<P>,
    response: &SeenMessage<Kept>,
) -> Result<(), SinkFault> {
    let facts = response.kept.facts();
    let warnings = warnings_of(&response.frame.header, response.kept.announced());
    put_result(writer, &facts)?;
    put_warnings(writer, response.kept.is_text_dropped(), &warnings)?;
    put_tracing(writer, &facts)
}

/// Takes the warnings of a response.
fn put_warnings<P: Pen>(
    writer: &mut TextWriter<P>,
    is_given_up: bool,
    warnings: &Warnings<'_>,
) -> Result<(), SinkFault> {
    match warnings.split_first() {
        Some((first, others)) => put_known_warnings(writer, &first, &others),
        None => put_no_warning(writer, is_given_up),
    }
}

fn put_no_warning<P: Pen>(writer: &mut TextWriter<P>, is_given_up: bool) -> Result<(), SinkFault> {
    put_fields(
        writer,
        &[
            Value::Null,
            none_whole(is_given_up),
            Value::Null,
            Value::Null,
        ],
    )
}

fn put_known_warnings<P: Pen>(
    writer: &mut TextWriter<P>,
    first: &Warning<'_>,
    others: &Warnings<'_>,
) -> Result<(), SinkFault> {
    put_fields(
        writer,
        &[Value::Text(first.text), Value::Flag(first.is_whole)],
    )?;
    put_texts_fields(writer, first, others)
}

fn put_tracing<P: Pen>(writer: &mut TextWriter<P>, facts: &Facts) -> Result<(), SinkFault> {
    put_fields(writer, &[uuid_or_null(facts.trace_id)])
}

/// Takes what is known of a result, and how many warnings a response has.
fn put_result<P: Pen>(writer: &mut TextWriter<P>, facts: &Facts) -> Result<(), SinkFault> {
    put_fields(
        writer,
        &[
            signed_or_null(facts.rows),
            signed_or_null(facts.columns),
            flag_or_null(facts.has_more_pages),
            number_or_null(facts.warnings),
        ],
    )
}
