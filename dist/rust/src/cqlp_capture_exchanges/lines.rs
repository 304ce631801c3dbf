// Written by dist/erase from crates/cqlp_capture_exchanges/src/lines.rt.
//! The line of what is reported of a request, a response, or both.

use crate::cqlp_capture_exchanges::bound::put_values_if;
use crate::cqlp_capture_exchanges::connection::Connection;
use crate::cqlp_capture_exchanges::details_line::put_numbers;
use crate::cqlp_capture_exchanges::end::put_end;
use crate::cqlp_capture_exchanges::error_details::error_details;
use crate::cqlp_capture_exchanges::form::{LineStyle, ValuesShown};
use crate::cqlp_capture_exchanges::level::put_consistency;
use crate::cqlp_capture_exchanges::member::{Member, Value, put_members};
use crate::cqlp_capture_exchanges::prepared::{Known, named};
use crate::cqlp_capture_exchanges::reply::{Reply, error_name, kind_name, message_of, reply_of};
use crate::cqlp_capture_exchanges::report::{ConnectionEnd, Report};
use crate::cqlp_capture_exchanges::span::{Unit, is_whole, put_time, time_between, took};
use crate::cqlp_capture_exchanges::statement::{Statement, has, statement_of, statements_of};
use crate::cqlp_capture_exchanges::utc::put_utc;
use crate::cqlp_capture_exchanges::warning::warnings_of;
use crate::cqlp_capture_exchanges::warning_texts::{WarningForm, put_other_texts};
use crate::cqlp_capture_summary::put_shown_text;
use crate::cqlp_grammar::SinkFault;
use crate::cqlp_note::{Header, Target};
use crate::cqlp_observer::{Facts, SeenFrame, Kept, SeenMessage, Opening, Paired};
use crate::cqlp_tcp_connections::Ends;
use crate::cqlp_text::{Buffered, Pen, TextWriter, opcode_name};

/// Takes the line of a report of this connection in this style, in a capture whose first packet came at this time, and passes it on.
pub(crate) fn put_line<W: Target>(
    writer: &mut TextWriter<Buffered<W>>,
    known: &Known,
    style: LineStyle,
    first: Option<u64>,
    connection: &Connection,
    report: &Report<'_>,
) -> Result<(), SinkFault> {
    put_report(writer, known, style, first, connection, report)?;
    writer.pass_on()
}

/// Takes the line of a report.
fn put_report<P: Pen>(
    writer: &mut TextWriter<P>,
    known: &Known,
    style: LineStyle,
    first: Option<u64>,
    connection: &Connection,
    report: &Report<'_>,
) -> Result<(), SinkFault> {
    match report {
        Report::Messages { paired, end } => put_paired(
            writer, known, style, first, connection, *end, paired,
        ),
        Report::Unread { time, opening } => put_unread(
            writer, style, first, connection, *time, *opening,
        ),
    }
}

/// Takes the line of messages, whose connection ended so where that is why they are reported.
fn put_paired<P: Pen>(
    writer: &mut TextWriter<P>,
    known: &Known,
    style: LineStyle,
    first: Option<u64>,
    connection: &Connection,
    end: Option<ConnectionEnd>,
    exchange: &Paired<Kept>,
) -> Result<(), SinkFault> {
    match exchange {
        Paired::Exchange { request, response } => {
            put_exchange(writer, known, style, first, connection, request, response)
        }
        Paired::Unanswered { request } => {
            put_unanswered(writer, known, style, first, connection, end, request)
        }
        Paired::Unasked { response } => put_unasked(writer, style, first, connection, response),
        Paired::Event { event } => put_event(writer, style, first, connection, event),
    }
}

fn put_exchange<P: Pen>(
    writer: &mut TextWriter<P>,
    known: &Known,
    style: LineStyle,
    first: Option<u64>,
    connection: &Connection,
    request: &SeenMessage<Kept>,
    response: &SeenMessage<Kept>,
) -> Result<(), SinkFault> {
    put_place(writer, style, first, connection, &request.frame)?;
    put_request(writer, known, style.values, request)?;
    writer.put(b" -> ")?;
    put_response(writer, response)?;
    put_took(writer, &request.frame, &response.frame)
}

fn put_unanswered<P: Pen>(
    writer: &mut TextWriter<P>,
    known: &Known,
    style: LineStyle,
    first: Option<u64>,
    connection: &Connection,
    end: Option<ConnectionEnd>,
    request: &SeenMessage<Kept>,
) -> Result<(), SinkFault> {
    put_place(writer, style, first, connection, &request.frame)?;
    put_request(writer, known, style.values, request)?;
    writer.put(b" -> nothing")?;
    writer.put_str(end_text(end))?;
    writer.put(b"\n")
}

/// How the connection of a request without a response ended, after a space.
fn end_text(end: Option<ConnectionEnd>) -> &'static str {
    match end {
        None => "",
        Some(ConnectionEnd::Reset) => " (reset)",
        Some(ConnectionEnd::Closed) => " (closed)",
        Some(ConnectionEnd::Open) => " (open)",
    }
}

fn put_unasked<P: Pen>(
    writer: &mut TextWriter<P>,
    style: LineStyle,
    first: Option<u64>,
    connection: &Connection,
    response: &SeenMessage<Kept>,
) -> Result<(), SinkFault> {
    put_place(writer, style, first, connection, &response.frame)?;
    writer.put(b"nothing -> ")?;
    put_response(writer, response)?;
    writer.put(b"\n")
}

fn put_event<P: Pen>(
    writer: &mut TextWriter<P>,
    style: LineStyle,
    first: Option<u64>,
    connection: &Connection,
    event: &SeenMessage<Kept>,
) -> Result<(), SinkFault> {
    put_place(writer, style, first, connection, &event.frame)?;
    put_response(writer, event)?;
    writer.put(b"\n")
}

/// Takes the line of a connection that begins with no frames of version 4.
fn put_unread<P: Pen>(
    writer: &mut TextWriter<P>,
    style: LineStyle,
    first: Option<u64>,
    connection: &Connection,
    time: Option<u64>,
    opening: Opening,
) -> Result<(), SinkFault> {
    put_begun(writer, style.is_utc, first, time)?;
    writer.put(b" ")?;
    writer.put_number(connection.number)?;
    put_ends(writer, style.has_ends, &connection.ends)?;
    writer.put(b" unread ")?;
    put_opening(writer, opening)?;
    writer.put(b"\n")
}

/// Takes what is not read, and what would help.
fn put_opening<P: Pen>(writer: &mut TextWriter<P>, opening: Opening) -> Result<(), SinkFault> {
    match opening {
        Opening::Frames => writer.put(b""),
        Opening::OtherVersion(version) => put_other_version(writer, version),
        Opening::Tls => writer.put(b"TLS: connect without it"),
        Opening::Http => writer.put(b"HTTP: this is not the port of a node"),
    }
}

fn put_other_version<P: Pen>(writer: &mut TextWriter<P>, version: u8) -> Result<(), SinkFault> {
    writer.put(b"version ")?;
    writer.put_number(u64::from(version))?;
    writer.put(b": set the driver's protocol version to 4")
}

/// Takes when a frame began, and where.
fn put_place<P: Pen>(
    writer: &mut TextWriter<P>,
    style: LineStyle,
    first: Option<u64>,
    connection: &Connection,
    frame: &SeenFrame,
) -> Result<(), SinkFault> {
    put_begun(writer, style.is_utc, first, frame.begun)?;
    writer.put(b" ")?;
    writer.put_number(connection.number)?;
    writer.put(b":")?;
    put_stream(writer, &frame.header)?;
    put_ends(writer, style.has_ends, &connection.ends)?;
    writer.put(b" ")
}

/// Takes when something began, in a capture whose first packet came at this time.
fn put_begun<P: Pen>(
    writer: &mut TextWriter<P>,
    is_utc: bool,
    first: Option<u64>,
    time: Option<u64>,
) -> Result<(), SinkFault> {
    if is_utc {
        put_utc(writer, time)
    } else {
        put_time(writer, Unit::Second, time_between(first, time))
    }
}

/// Takes the ends of a connection, where lines have them.
fn put_ends<P: Pen>(
    writer: &mut TextWriter<P>,
    has_ends: bool,
    ends: &Ends,
) -> Result<(), SinkFault> {
    if has_ends {
        put_both_ends(writer, ends)
    } else {
        Ok(())
    }
}

fn put_both_ends<P: Pen>(writer: &mut TextWriter<P>, ends: &Ends) -> Result<(), SinkFault> {
    writer.put(b" ")?;
    put_end(writer, ends.client)?;
    writer.put(b" ")?;
    put_end(writer, ends.node)
}

/// Takes a stream id.
fn put_stream<P: Pen>(writer: &mut TextWriter<P>, header: &Header) -> Result<(), SinkFault> {
    writer.put_signed(i64::from(header.stream))
}

/// Takes how long a response took.
fn put_took<P: Pen>(
    writer: &mut TextWriter<P>,
    request: &SeenFrame,
    response: &SeenFrame,
) -> Result<(), SinkFault> {
    let took = took(request, response);
    writer.put(b" ")?;
    put_time(writer, Unit::Millisecond, took)?;
    writer.put(b" ms\n")
}

fn put_request<P: Pen>(
    writer: &mut TextWriter<P>,
    known: &Known,
    shown: ValuesShown,
    request: &SeenMessage<Kept>,
) -> Result<(), SinkFault> {
    let front = request.kept.front();
    let count = statements_of(&request.frame.header, front);
    let statement = named(known, statement_of(&request.frame.header, front));
    let facts = request.kept.facts();
    writer.put_str(opcode_name(request.frame.header.opcode))?;
    put_consistency(writer, facts.consistency)?;
    put_count(writer, count)?;
    put_statement(writer, &statement)?;
    writer.put_str(given_up_mark(request.kept.is_text_dropped()))?;
    put_values_if(writer, known, shown, request)?;
    put_paging(writer, &facts)?;
    put_frame(writer, &request.frame)
}

fn put_response<P: Pen>(
    writer: &mut TextWriter<P>,
    response: &SeenMessage<Kept>,
) -> Result<(), SinkFault> {
    let reply = reply_of(&response.frame.header, response.kept.front());
    let facts = response.kept.facts();
    put_reply(writer, reply)?;
    put_page_counts(writer, &facts)?;
    put_message(writer, reply, response.kept.front())?;
    writer.put_str(given_up_mark(response.kept.is_text_dropped()))?;
    put_warnings(
        writer,
        facts.warnings,
        &response.frame.header,
        response.kept.announced(),
    )?;
    put_tracing(writer, facts.trace_id)?;
    put_frame(writer, &response.frame)
}

/// Takes how many statements a BATCH has.
fn put_count<P: Pen>(writer: &mut TextWriter<P>, count: Option<u16>) -> Result<(), SinkFault> {
    match count {
        Some(count) => put_known_count(writer, count),
        None => writer.put(b""),
    }
}

fn put_known_count<P: Pen>(writer: &mut TextWriter<P>, count: u16) -> Result<(), SinkFault> {
    writer.put(b" ")?;
    writer.put_number(u64::from(count))
}

/// Takes how many rows a page is to have, and whether it is one after the first.
fn put_paging<P: Pen>(writer: &mut TextWriter<P>, facts: &Facts) -> Result<(), SinkFault> {
    put_page_size(writer, facts.page_size)?;
    writer.put_str(next_mark(facts.has_paging_state))
}

fn next_mark(has_paging_state: Option<bool>) -> &'static str {
    match has_paging_state {
        Some(true) => " next",
        Some(false) => "",
        None => "",
    }
}

/// Takes how many rows a page is to have.
fn put_page_size<P: Pen>(writer: &mut TextWriter<P>, size: Option<i32>) -> Result<(), SinkFault> {
    match size {
        Some(size) => put_members(writer, &[Member(" page ", Value::Signed(size))]),
        None => writer.put(b""),
    }
}

/// Takes how many rows and columns a result has, and whether more pages follow.
fn put_page_counts<P: Pen>(writer: &mut TextWriter<P>, facts: &Facts) -> Result<(), SinkFault> {
    put_counts(writer, facts.rows, facts.columns)?;
    writer.put_str(pages_mark(facts.has_more_pages))
}

fn pages_mark(has_more_pages: Option<bool>) -> &'static str {
    match has_more_pages {
        Some(true) => " more",
        Some(false) => "",
        None => "",
    }
}

/// Takes how many rows and columns a result has.
fn put_counts<P: Pen>(
    writer: &mut TextWriter<P>,
    rows: Option<i32>,
    columns: Option<i32>,
) -> Result<(), SinkFault> {
    match (rows, columns) {
        (Some(rows), Some(columns)) => put_members(
            writer,
            &[
                Member(" ", Value::Signed(rows)),
                Member("x", Value::Signed(columns)),
            ],
        ),
        _ => writer.put(b""),
    }
}

/// Takes the message of an ERROR, and how many nodes it counts.
fn put_message<P: Pen>(
    writer: &mut TextWriter<P>,
    reply: Reply,
    front: &[u8],
) -> Result<(), SinkFault> {
    match reply {
        Reply::Error(code) => put_error_message(writer, code, front),
        Reply::Result(_) => writer.put(b""),
        Reply::Other(_) => writer.put(b""),
    }
}

fn put_error_message<P: Pen>(
    writer: &mut TextWriter<P>,
    code: u32,
    front: &[u8],
) -> Result<(), SinkFault> {
    let reply = Reply::Error(code);
    let message = message_of(reply, front);
    let details = error_details(reply, front);
    put_statement(writer, &message)?;
    put_numbers(writer, &details)
}

/// Takes how many warnings a response has, and their texts.
fn put_warnings<P: Pen>(
    writer: &mut TextWriter<P>,
    count: Option<u16>,
    header: &Header,
    announced: &[u8],
) -> Result<(), SinkFault> {
    match count {
        Some(count) => put_known_warnings(writer, count, header, announced),
        None => writer.put(b""),
    }
}

fn put_known_warnings<P: Pen>(
    writer: &mut TextWriter<P>,
    count: u16,
    header: &Header,
    announced: &[u8],
) -> Result<(), SinkFault> {
    let warnings = warnings_of(header, announced);
    writer.put(b" warnings ")?;
    writer.put_number(u64::from(count))?;
    put_other_texts(writer, WarningForm::Line, &warnings)
}

/// Takes the tracing id of a response.
fn put_tracing<P: Pen>(writer: &mut TextWriter<P>, id: Option<[u8; 16]>) -> Result<(), SinkFault> {
    match id {
        Some(id) => put_trace_id(writer, id),
        None => writer.put(b""),
    }
}

fn put_trace_id<P: Pen>(writer: &mut TextWriter<P>, id: [u8; 16]) -> Result<(), SinkFault> {
    writer.put(b" tracing ")?;
    writer.put_uuid(id)
}

/// Takes how many bytes a frame has, and what is missing of it.
fn put_frame<P: Pen>(writer: &mut TextWriter<P>, frame: &SeenFrame) -> Result<(), SinkFault> {
    writer.put(b" ")?;
    writer.put_number(9 + frame.header.length as u64)?;
    writer.put_str(cut_mark(is_whole(frame.extent)))?;
    writer.put_str(compressed_mark(has(frame.header.flags, 0x01)))
}

fn cut_mark(is_whole: bool) -> &'static str {
    if is_whole { "" } else { " cut" }
}

fn compressed_mark(is_compressed: bool) -> &'static str {
    if is_compressed { " compressed" } else { "" }
}

/// Takes what a request asks to be done, after a space.
fn put_statement<P: Pen>(
    writer: &mut TextWriter<P>,
    statement: &Option<Statement<'_>>,
) -> Result<(), SinkFault> {
    match statement {
        Some(said) => put_said(writer, said),
        None => writer.put(b""),
    }
}

fn put_said<P: Pen>(writer: &mut TextWriter<P>, statement: &Statement<'_>) -> Result<(), SinkFault> {
    match statement {
        Statement::Text { text, is_whole } => put_text(writer, text, *is_whole),
        Statement::Id { id, is_whole } => put_id(writer, id, *is_whole),
    }
}

fn put_text<P: Pen>(writer: &mut TextWriter<P>, text: &str, is_whole: bool) -> Result<(), SinkFault> {
    writer.put(b" \"")?;
    put_shown_text(writer, text)?;
    writer.put(b"\"")?;
    writer.put_str(more(is_whole))
}

pub(crate) fn put_id<P: Pen>(
    writer: &mut TextWriter<P>,
    id: &[u8],
    is_whole: bool,
) -> Result<(), SinkFault> {
    writer.put(b" ")?;
    writer.put_hex(id)?;
    writer.put_str(more(is_whole))
}

/// What is in place of a text that was given up.
fn given_up_mark(is_given_up: bool) -> &'static str {
    if is_given_up { " .." } else { "" }
}

/// What comes behind a text that is not whole.
fn more(is_whole: bool) -> &'static str {
    if is_whole { "" } else { ".." }
}

/// Takes what a response is.
fn put_reply<P: Pen>(writer: &mut TextWriter<P>, reply: Reply) -> Result<(), SinkFault> {
    match reply {
        Reply::Result(kind) => put_kind(writer, kind_name(kind), kind),
        Reply::Error(code) => put_error(writer, code),
        Reply::Other(opcode) => writer.put_str(opcode_name(opcode)),
    }
}

fn put_error<P: Pen>(writer: &mut TextWriter<P>, code: u32) -> Result<(), SinkFault> {
    writer.put(b"ERROR ")?;
    put_name(writer, error_name(code), code)
}

/// Takes the name of a kind, or where it has none the number's four bytes.
fn put_kind<P: Pen>(
    writer: &mut TextWriter<P>,
    name: Option<&'static str>,
    kind: u32,
) -> Result<(), SinkFault> {
    match name {
        Some(name) => writer.put_str(name),
        None => put_unknown_kind(writer, kind),
    }
}

fn put_unknown_kind<P: Pen>(writer: &mut TextWriter<P>, kind: u32) -> Result<(), SinkFault> {
    writer.put(b"RESULT ")?;
    writer.put_hex_text(&kind.to_be_bytes())
}

/// Takes a name, or where there is none the number's four bytes.
pub(crate) fn put_name<P: Pen>(
    writer: &mut TextWriter<P>,
    name: Option<&'static str>,
    number: u32,
) -> Result<(), SinkFault> {
    match name {
        Some(name) => writer.put_str(name),
        None => writer.put_hex_text(&number.to_be_bytes()),
    }
}
