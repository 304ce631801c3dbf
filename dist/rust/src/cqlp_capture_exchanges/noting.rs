// Written by dist/erase from crates/cqlp_capture_exchanges/src/noting.rt.
//! Requests with what came of them, counted in a summary.

use crate::cqlp_capture_exchanges::attribute::{append_attribute, append_id};
use crate::cqlp_capture_exchanges::batch_name::{MOST, batch_name};
use crate::cqlp_capture_exchanges::connection::Connection;
use crate::cqlp_capture_exchanges::csv_record::note_record;
use crate::cqlp_capture_exchanges::filter::is_failure;
use crate::cqlp_capture_exchanges::form::ExchangeForm;
use crate::cqlp_capture_exchanges::histogram::note_by_time;
use crate::cqlp_capture_exchanges::intervals::note_in_interval;
use crate::cqlp_capture_exchanges::label::Label;
use crate::cqlp_capture_exchanges::naming::Naming;
use crate::cqlp_capture_exchanges::outcome::Outcome;
use crate::cqlp_capture_exchanges::prepared::{Known, named};
use crate::cqlp_capture_exchanges::reply::reply_of;
use crate::cqlp_capture_exchanges::report::Report;
use crate::cqlp_capture_exchanges::span::{Span, took};
use crate::cqlp_capture_exchanges::statement::{Statement, statement_of};
use crate::cqlp_capture_exchanges::summary_by::{Attribute, SummaryBy};
use crate::cqlp_capture_exchanges::table_name::table_name;
use crate::cqlp_capture_summary::{Occurrence, Summary};
use crate::cqlp_note::Opcode;
use crate::cqlp_observer::{Kept, SeenMessage, Paired};
use crate::cqlp_text::opcode_name;

/// Counts what is reported, where a summary is the form.
pub(crate) fn note(
    summary: &mut Summary,
    form: ExchangeForm,
    known: &Known,
    connection: &Connection,
    report: &Report<'_>,
)
{
    match form {
        ExchangeForm::Lines(_) => {}
        ExchangeForm::Json(_) => {}
        ExchangeForm::Csv => note_record(summary),
        ExchangeForm::Summary(by) => note_report(summary, by, known, connection, report),
        ExchangeForm::SummaryJson(by) => note_report(summary, by, known, connection, report),
        ExchangeForm::Intervals(seconds, _) => note_in_interval(summary, seconds, report),
        ExchangeForm::Histogram => note_by_time(summary, report),
    }
}

/// Counts a request with what came of it.
fn note_report(
    summary: &mut Summary,
    by: SummaryBy,
    known: &Known,
    connection: &Connection,
    report: &Report<'_>,
)
{
    match report {
        Report::Messages { paired, .. } => note_paired(summary, by, known, connection, paired),
        Report::Unread { .. } => {}
    }
}

fn note_paired(
    summary: &mut Summary,
    by: SummaryBy,
    known: &Known,
    connection: &Connection,
    paired: &Paired<Kept>,
)
{
    match paired {
        Paired::Exchange { request, response } => {
            let outcome = answered_by(request, response);
            note_by(summary, by, known, connection, request, &outcome);
        }
        Paired::Unanswered { request } => {
            let outcome = unanswered(request);
            note_by(summary, by, known, connection, request, &outcome);
        }
        Paired::Unasked { .. } | Paired::Event { .. } => {}
    }
}

pub(crate) fn answered_by(
    request: &SeenMessage<Kept>,
    response: &SeenMessage<Kept>,
) -> Outcome {
    Outcome {
        is_answered: true,
        reply: Some(reply_of(&response.frame.header, response.kept.front())),
        is_error: is_failure(&response.frame),
        rows: rows_in(response.kept.facts().rows),
        bytes: (9 + request.frame.header.length as u64) + (9 + response.frame.header.length as u64),
        took: nanoseconds_in(took(&request.frame, &response.frame)),
        at: request.frame.begun,
    }
}

pub(crate) fn unanswered(request: &SeenMessage<Kept>) -> Outcome {
    Outcome {
        is_answered: false,
        reply: None,
        is_error: false,
        rows: 0,
        bytes: 9 + request.frame.header.length as u64,
        took: None,
        at: request.frame.begun,
    }
}

/// Counts a request on this connection by what is asked for.
fn note_by(
    summary: &mut Summary,
    by: SummaryBy,
    known: &Known,
    connection: &Connection,
    request: &SeenMessage<Kept>,
    outcome: &Outcome,
)
{
    match by {
        SummaryBy::Statement(naming) => note_request(summary, naming, known, request, outcome),
        SummaryBy::Table => note_table(summary, known, request, outcome),
        SummaryBy::Attribute(attribute) => {
            note_attribute(summary, attribute, connection, request, outcome);
        }
    }
}

/// Counts a request under the table that its statement names, or under its opcode.
fn note_table(
    summary: &mut Summary,
    known: &Known,
    request: &SeenMessage<Kept>,
    outcome: &Outcome,
)
{
    let own = statement_of(&request.frame.header, request.kept.front());
    match table_of(named(known, own)) {
        Some(name) => note_as(summary, Naming::Literal, name.as_slice(), true, outcome),
        None => note_opcode(summary, Naming::Literal, request, outcome),
    }
}

/// The table that a statement names, if its text is known.
fn table_of(statement: Option<Statement<'_>>) -> Option<Label> {
    match statement {
        Some(Statement::Text { text, is_whole }) => table_name(text.as_bytes(), is_whole),
        _ => None,
    }
}

/// Counts a request under an attribute of it.
fn note_attribute(
    summary: &mut Summary,
    attribute: Attribute,
    connection: &Connection,
    request: &SeenMessage<Kept>,
    outcome: &Outcome,
)
{
    let mut label = Label::new();
    let appended = append_attribute(attribute, connection, request, outcome, &mut label);
    note_as(
        summary,
        Naming::Literal,
        label.as_slice(),
        appended.is_ok(),
        outcome,
    );
}

/// Counts a request under its statement.
fn note_request(
    summary: &mut Summary,
    naming: Naming,
    known: &Known,
    request: &SeenMessage<Kept>,
    outcome: &Outcome,
)
{
    let own = statement_of(&request.frame.header, request.kept.front());
    match named(known, own) {
        Some(Statement::Text { text, is_whole }) => {
            note_text(summary, naming, text, is_whole, request, outcome);
        }
        Some(Statement::Id { id, is_whole }) => note_id(summary, id, is_whole, request, outcome),
        None => note_opcode(summary, naming, request, outcome),
    }
}

/// Counts a request under the text of its statement, after a word where it is the first one of a BATCH.
fn note_text(
    summary: &mut Summary,
    naming: Naming,
    text: &str,
    is_whole: bool,
    request: &SeenMessage<Kept>,
    outcome: &Outcome,
)
{
    if is_batch(request.frame.header.opcode) {
        let name = batch_name(text.as_bytes());
        note_as(
            summary,
            naming,
            name.as_slice(),
            has_all(text, is_whole),
            outcome,
        );
    } else {
        note_as(summary, naming, text.as_bytes(), is_whole, outcome);
    }
}

/// Whether the name of a BATCH has all of its first statement's text.
fn has_all(text: &str, is_whole: bool) -> bool {
    is_whole && text.len() <= MOST
}

/// Counts a request under its opcode and the id of its statement, whose text is not known.
fn note_id(
    summary: &mut Summary,
    id: &[u8],
    is_whole: bool,
    request: &SeenMessage<Kept>,
    outcome: &Outcome,
)
{
    let mut label = Label::new();
    let appended = append_id(request.frame.header.opcode, id, is_whole, &mut label);
    note_as(
        summary,
        Naming::Literal,
        label.as_slice(),
        appended.is_ok(),
        outcome,
    );
}

/// Counts a request under its opcode, where its statement is not known.
fn note_opcode(
    summary: &mut Summary,
    naming: Naming,
    request: &SeenMessage<Kept>,
    outcome: &Outcome,
)
{
    let name = opcode_name(request.frame.header.opcode);
    note_as(summary, naming, name.as_bytes(), true, outcome);
}

/// Counts a request under a name.
fn note_as(
    summary: &mut Summary,
    naming: Naming,
    name: &[u8],
    is_whole_name: bool,
    outcome: &Outcome,
)
{
    let occurrence = Occurrence {
        name,
        is_whole_name,
        is_error: outcome.is_error,
        rows: outcome.rows,
        bytes: outcome.bytes,
        took: outcome.took,
    };
    match naming {
        Naming::Fingerprint => {
            summary.note_by_fingerprint(&occurrence, outcome.is_answered, outcome.at);
        }
        Naming::Literal => summary.note_request(&occurrence, outcome.is_answered, outcome.at),
    }
}

fn is_batch(opcode: Opcode) -> bool {
    opcode == Opcode::Batch
}

/// Rows, where it is known that there are some.
fn rows_in(rows: Option<i32>) -> u64 {
    match rows {
        Some(rows) if rows > 0 => u64::from(rows.unsigned_abs()),
        _ => 0,
    }
}

/// How long something took, where the clock did not go back.
fn nanoseconds_in(time: Option<Span>) -> Option<u64> {
    match time {
        Some(span) if !span.is_before => Some(span.nanoseconds),
        _ => None,
    }
}
