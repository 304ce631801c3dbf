// Written by dist/erase from crates/cqlp_capture_exchanges/src/error_details.rt.
//! What an ERROR has behind its message, by its code. Section 9 of `native_protocol_v4.spec`.

use crate::cqlp_capture_exchanges::prepared::{after_number, whole_id};
use crate::cqlp_capture_exchanges::reply::Reply;
use crate::cqlp_capture_exchanges::statement::{Statement, string_in};

/// What an ERROR has behind its message. Each value as far as it is there whole.
#[derive(Clone, Copy)]
pub(crate) enum ErrorDetails<'a> {
    Unavailable {
        consistency: Option<u16>,
        required: Option<i32>,
        alive: Option<i32>,
    },
    WriteTimeout {
        answers: Answers,
        write_type: Option<&'a str>,
    },
    ReadTimeout {
        answers: Answers,
        data_present: Option<bool>,
    },
    ReadFailure {
        answers: Answers,
        failures: Option<i32>,
        data_present: Option<bool>,
    },
    FunctionFailure {
        keyspace: Option<&'a str>,
        function: Option<&'a str>,
    },
    WriteFailure {
        answers: Answers,
        failures: Option<i32>,
        write_type: Option<&'a str>,
    },
    AlreadyExists {
        keyspace: Option<&'a str>,
        table: Option<&'a str>,
    },
    Unprepared {
        id: Option<&'a [u8]>,
    },
}

/// How many nodes answered.
#[derive(Clone, Copy)]
pub(crate) struct Answers {
    pub(crate) consistency: Option<u16>,
    pub(crate) received: Option<i32>,
    pub(crate) required: Option<i32>,
}

/// What a response has behind the message of an ERROR.
pub(crate) fn error_details<'a>(reply: Reply, front: &'a [u8]) -> Option<ErrorDetails<'a>> {
    match reply {
        Reply::Error(code) => details_with(code, behind_string(after_number(front))),
        Reply::Result(_) => None,
        Reply::Other(_) => None,
    }
}

/// What these contents say of an ERROR with this code.
fn details_with<'a>(code: u32, contents: &'a [u8]) -> Option<ErrorDetails<'a>> {
    match code {
        0x1000 => Some(unavailable(contents)),
        0x1100 => Some(write_timeout(contents)),
        0x1200 => Some(read_timeout(contents)),
        0x1300 => Some(read_failure(contents)),
        0x1400 => Some(function_failure(contents)),
        0x1500 => Some(write_failure(contents)),
        0x2400 => Some(already_exists(contents)),
        0x2500 => Some(unprepared(contents)),
        _ => None,
    }
}

fn unavailable(contents: &[u8]) -> ErrorDetails<'_> {
    ErrorDetails::Unavailable {
        consistency: short_in(contents),
        required: int_in(behind(2, contents)),
        alive: int_in(behind(6, contents)),
    }
}

fn write_timeout(contents: &[u8]) -> ErrorDetails<'_> {
    ErrorDetails::WriteTimeout {
        answers: answers_in(contents),
        write_type: whole_string(behind(10, contents)),
    }
}

fn read_timeout(contents: &[u8]) -> ErrorDetails<'_> {
    ErrorDetails::ReadTimeout {
        answers: answers_in(contents),
        data_present: flag_in(behind(10, contents)),
    }
}

fn read_failure(contents: &[u8]) -> ErrorDetails<'_> {
    ErrorDetails::ReadFailure {
        answers: answers_in(contents),
        failures: int_in(behind(10, contents)),
        data_present: flag_in(behind(14, contents)),
    }
}

fn function_failure(contents: &[u8]) -> ErrorDetails<'_> {
    ErrorDetails::FunctionFailure {
        keyspace: whole_string(contents),
        function: whole_string(behind_string(contents)),
    }
}

fn write_failure(contents: &[u8]) -> ErrorDetails<'_> {
    ErrorDetails::WriteFailure {
        answers: answers_in(contents),
        failures: int_in(behind(10, contents)),
        write_type: whole_string(behind(14, contents)),
    }
}

fn already_exists(contents: &[u8]) -> ErrorDetails<'_> {
    ErrorDetails::AlreadyExists {
        keyspace: whole_string(contents),
        table: whole_string(behind_string(contents)),
    }
}

fn unprepared(contents: &[u8]) -> ErrorDetails<'_> {
    ErrorDetails::Unprepared {
        id: whole_id(contents),
    }
}

/// How many nodes answered, at the front.
fn answers_in(contents: &[u8]) -> Answers {
    Answers {
        consistency: short_in(contents),
        received: int_in(behind(2, contents)),
        required: int_in(behind(6, contents)),
    }
}

/// What comes after so many bytes.
fn behind(count: usize, bytes: &[u8]) -> &[u8] {
    &bytes[bytes.len().min(count)..]
}

/// What comes after a \[string\].
fn behind_string(bytes: &[u8]) -> &[u8] {
    match short_in(bytes) {
        Some(len) => behind(2 + len as usize, bytes),
        None => &[],
    }
}

/// A \[short\] at the front, if it is there.
fn short_in(bytes: &[u8]) -> Option<u16> {
    let (number, _) = bytes.split_first_chunk::<2>()?;
    Some(u16::from_be_bytes(*number))
}

/// An \[int\] at the front, if it is there.
fn int_in(bytes: &[u8]) -> Option<i32> {
    let (number, _) = bytes.split_first_chunk::<4>()?;
    Some(i32::from_be_bytes(*number))
}

/// Whether a \[byte\] at the front is not 0, if it is there.
fn flag_in(bytes: &[u8]) -> Option<bool> {
    let (byte, _) = bytes.split_first()?;
    Some(*byte != 0)
}

/// A \[string\] at the front, if it is there whole.
fn whole_string(bytes: &[u8]) -> Option<&str> {
    match string_in(bytes) {
        Some(
            Statement::Text {
                text,
                is_whole: true,
            },
        ) => Some(text),
        _ => None,
    }
}
