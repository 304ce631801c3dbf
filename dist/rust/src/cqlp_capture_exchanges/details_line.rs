// Written by dist/erase from crates/cqlp_capture_exchanges/src/details_line.rt.
//! What a line says of the nodes that an ERROR counts.

use crate::cqlp_capture_exchanges::error_details::{Answers, ErrorDetails};
use crate::cqlp_capture_exchanges::level::put_consistency;
use crate::cqlp_capture_exchanges::member::{Member, Value, put_members};
use crate::cqlp_grammar::SinkFault;
use crate::cqlp_text::{Pen, TextWriter};

/// Takes how many nodes answered or were alive, each after a space, if all of these numbers are there.
pub(crate) fn put_numbers<P: Pen>(
    writer: &mut TextWriter<P>,
    details: &Option<ErrorDetails<'_>>,
) -> Result<(), SinkFault> {
    match details {
        Some(details) => put_known(writer, details),
        None => writer.put(b""),
    }
}

fn put_known<P: Pen>(
    writer: &mut TextWriter<P>,
    details: &ErrorDetails<'_>,
) -> Result<(), SinkFault> {
    match *details {
        ErrorDetails::Unavailable {
            consistency,
            required,
            alive,
        } => put_alive(writer, consistency, required, alive),
        ErrorDetails::WriteTimeout { answers, .. } => put_received(writer, answers),
        ErrorDetails::ReadTimeout { answers, .. } => put_received(writer, answers),
        ErrorDetails::ReadFailure {
            answers,
            failures,
            ..
        } => put_failed(writer, answers, failures),
        ErrorDetails::WriteFailure {
            answers,
            failures,
            ..
        } => put_failed(writer, answers, failures),
        ErrorDetails::FunctionFailure { .. } => writer.put(b""),
        ErrorDetails::AlreadyExists { .. } => writer.put(b""),
        ErrorDetails::Unprepared { .. } => writer.put(b""),
    }
}

fn put_alive<P: Pen>(
    writer: &mut TextWriter<P>,
    consistency: Option<u16>,
    required: Option<i32>,
    alive: Option<i32>,
) -> Result<(), SinkFault> {
    match (consistency, required, alive) {
        (Some(level), Some(required), Some(alive)) => {
            put_known_alive(writer, Some(level), required, alive)
        }
        _ => writer.put(b""),
    }
}

fn put_known_alive<P: Pen>(
    writer: &mut TextWriter<P>,
    consistency: Option<u16>,
    required: i32,
    alive: i32,
) -> Result<(), SinkFault> {
    put_consistency(writer, consistency)?;
    put_alive_of(writer, alive, required)
}

fn put_alive_of<P: Pen>(
    writer: &mut TextWriter<P>,
    alive: i32,
    required: i32,
) -> Result<(), SinkFault> {
    put_members(
        writer,
        &[
            Member(" alive ", Value::Signed(alive)),
            Member(" of ", Value::Signed(required)),
        ],
    )
}

fn put_received<P: Pen>(writer: &mut TextWriter<P>, answers: Answers) -> Result<(), SinkFault> {
    match (answers.consistency, answers.received, answers.required) {
        (Some(level), Some(received), Some(required)) => {
            put_known_received(writer, Some(level), received, required)
        }
        _ => writer.put(b""),
    }
}

fn put_known_received<P: Pen>(
    writer: &mut TextWriter<P>,
    consistency: Option<u16>,
    received: i32,
    required: i32,
) -> Result<(), SinkFault> {
    put_consistency(writer, consistency)?;
    put_received_of(writer, received, required)
}

fn put_received_of<P: Pen>(
    writer: &mut TextWriter<P>,
    received: i32,
    required: i32,
) -> Result<(), SinkFault> {
    put_members(
        writer,
        &[
            Member(" received ", Value::Signed(received)),
            Member(" of ", Value::Signed(required)),
        ],
    )
}

fn put_failed<P: Pen>(
    writer: &mut TextWriter<P>,
    answers: Answers,
    failures: Option<i32>,
) -> Result<(), SinkFault> {
    match (
        answers.consistency,
        answers.received,
        answers.required,
        failures,
    ) {
        (Some(level), Some(received), Some(required), Some(failures)) => {
            put_known_failed(writer, Some(level), received, required, failures)
        }
        _ => writer.put(b""),
    }
}

fn put_known_failed<P: Pen>(
    writer: &mut TextWriter<P>,
    consistency: Option<u16>,
    received: i32,
    required: i32,
    failures: i32,
) -> Result<(), SinkFault> {
    put_consistency(writer, consistency)?;
    put_received_of(writer, received, required)?;
    put_failures(writer, failures)
}

fn put_failures<P: Pen>(writer: &mut TextWriter<P>, failures: i32) -> Result<(), SinkFault> {
    put_members(writer, &[Member(" failed ", Value::Signed(failures))])
}
