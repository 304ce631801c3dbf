// Written by dist/erase from crates/cqlp_capture_exchanges/src/details_object.rt.
//! The JSON object of what an ERROR has behind its message.

use crate::cqlp_capture_exchanges::error_details::{Answers, ErrorDetails};
use crate::cqlp_capture_exchanges::member::{
    Member, consistency_or_null, flag_or_null, hex_or_null, put_members, signed_or_null,
    text_or_null,
};
use crate::cqlp_grammar::SinkFault;
use crate::cqlp_text::{Pen, TextWriter};

/// Takes the member that has these, if there are any.
pub(crate) fn put_details<P: Pen>(
    writer: &mut TextWriter<P>,
    details: &Option<ErrorDetails<'_>>,
) -> Result<(), SinkFault> {
    match details {
        Some(details) => put_object(writer, details),
        None => writer.put(b""),
    }
}

fn put_object<P: Pen>(
    writer: &mut TextWriter<P>,
    details: &ErrorDetails<'_>,
) -> Result<(), SinkFault> {
    put_detail_members(writer, details)?;
    writer.put(b"}")
}

fn put_detail_members<P: Pen>(
    writer: &mut TextWriter<P>,
    details: &ErrorDetails<'_>,
) -> Result<(), SinkFault> {
    match *details {
        ErrorDetails::Unavailable {
            consistency,
            required,
            alive,
        } => put_unavailable(writer, consistency, required, alive),
        ErrorDetails::WriteTimeout {
            answers,
            write_type,
        } => put_write_timeout(writer, answers, write_type),
        ErrorDetails::ReadTimeout {
            answers,
            data_present,
        } => put_read_timeout(writer, answers, data_present),
        ErrorDetails::ReadFailure {
            answers,
            failures,
            data_present,
        } => put_read_failure(writer, answers, failures, data_present),
        ErrorDetails::FunctionFailure { keyspace, function } => {
            put_function_failure(writer, keyspace, function)
        }
        ErrorDetails::WriteFailure {
            answers,
            failures,
            write_type,
        } => put_write_failure(writer, answers, failures, write_type),
        ErrorDetails::AlreadyExists { keyspace, table } => {
            put_already_exists(writer, keyspace, table)
        }
        ErrorDetails::Unprepared { id } => put_unprepared(writer, id),
    }
}

fn put_unavailable<P: Pen>(
    writer: &mut TextWriter<P>,
    consistency: Option<u16>,
    required: Option<i32>,
    alive: Option<i32>,
) -> Result<(), SinkFault> {
    put_members(
        writer,
        &[
            Member(
                ",\"details\":{\"consistency\":",
                consistency_or_null(consistency),
            ),
            Member(",\"required\":", signed_or_null(required)),
            Member(",\"alive\":", signed_or_null(alive)),
        ],
    )
}

fn put_write_timeout<P: Pen>(
    writer: &mut TextWriter<P>,
    answers: Answers,
    write_type: Option<&str>,
) -> Result<(), SinkFault> {
    put_members(
        writer,
        &[
            Member(
                ",\"details\":{\"consistency\":",
                consistency_or_null(answers.consistency),
            ),
            Member(",\"received\":", signed_or_null(answers.received)),
            Member(",\"required\":", signed_or_null(answers.required)),
            Member(",\"write_type\":", text_or_null(write_type)),
        ],
    )
}

fn put_read_timeout<P: Pen>(
    writer: &mut TextWriter<P>,
    answers: Answers,
    data_present: Option<bool>,
) -> Result<(), SinkFault> {
    put_members(
        writer,
        &[
            Member(
                ",\"details\":{\"consistency\":",
                consistency_or_null(answers.consistency),
            ),
            Member(",\"received\":", signed_or_null(answers.received)),
            Member(",\"required\":", signed_or_null(answers.required)),
            Member(",\"data_present\":", flag_or_null(data_present)),
        ],
    )
}

fn put_read_failure<P: Pen>(
    writer: &mut TextWriter<P>,
    answers: Answers,
    failures: Option<i32>,
    data_present: Option<bool>,
) -> Result<(), SinkFault> {
    put_members(
        writer,
        &[
            Member(
                ",\"details\":{\"consistency\":",
                consistency_or_null(answers.consistency),
            ),
            Member(",\"received\":", signed_or_null(answers.received)),
            Member(",\"required\":", signed_or_null(answers.required)),
            Member(",\"failures\":", signed_or_null(failures)),
            Member(",\"data_present\":", flag_or_null(data_present)),
        ],
    )
}

fn put_function_failure<P: Pen>(
    writer: &mut TextWriter<P>,
    keyspace: Option<&str>,
    function: Option<&str>,
) -> Result<(), SinkFault> {
    put_members(
        writer,
        &[
            Member(",\"details\":{\"keyspace\":", text_or_null(keyspace)),
            Member(",\"function\":", text_or_null(function)),
        ],
    )
}

fn put_write_failure<P: Pen>(
    writer: &mut TextWriter<P>,
    answers: Answers,
    failures: Option<i32>,
    write_type: Option<&str>,
) -> Result<(), SinkFault> {
    put_members(
        writer,
        &[
            Member(
                ",\"details\":{\"consistency\":",
                consistency_or_null(answers.consistency),
            ),
            Member(",\"received\":", signed_or_null(answers.received)),
            Member(",\"required\":", signed_or_null(answers.required)),
            Member(",\"failures\":", signed_or_null(failures)),
            Member(",\"write_type\":", text_or_null(write_type)),
        ],
    )
}

fn put_already_exists<P: Pen>(
    writer: &mut TextWriter<P>,
    keyspace: Option<&str>,
    table: Option<&str>,
) -> Result<(), SinkFault> {
    put_members(
        writer,
        &[
            Member(",\"details\":{\"keyspace\":", text_or_null(keyspace)),
            Member(",\"table\":", text_or_null(table)),
        ],
    )
}

fn put_unprepared<P: Pen>(writer: &mut TextWriter<P>, id: Option<&[u8]>) -> Result<(), SinkFault> {
    put_members(writer, &[Member(",\"details\":{\"id\":", hex_or_null(id))])
}
