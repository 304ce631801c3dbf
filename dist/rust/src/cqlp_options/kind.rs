// Written by dist/erase from crates/cqlp_options/src/kind.rt.
//! Kinds of replies that are asked for.

use crate::cqlp_options::bad_value::BadValue;
use crate::cqlp_options::matched::path;
use crate::clap::ArgMatches;
use crate::cqlp_note::Opcode;

/// What a reply is to be.
#[derive(Clone, Copy)]
pub enum AskedKind {
    /// A RESULT of this kind. Section 4.2.5 of `native_protocol_v4.spec`.
    Result(u32),
    /// An ERROR with this code. Section 9 of `native_protocol_v4.spec`.
    Error(u32),
    /// Any response with this opcode.
    Response(Opcode),
}

/// The kind that is asked for, if one is.
pub(crate) fn kind(matches: &ArgMatches<'_>) -> Result<Option<AskedKind>, BadValue> {
    match path(matches, "kind") {
        Some(name) => {
            let kind = kind_named(name).ok_or(BadValue::Kind)?;
            Ok(Some(kind))
        }
        None => Ok(None),
    }
}

/// The kind that has this name in lines.
fn kind_named(name: &str) -> Option<AskedKind> {
    if let Some(kind) = result_named(name) {
        return Some(kind);
    }
    if let Some(kind) = response_named(name) {
        return Some(kind);
    }
    error_named(name)
}

fn result_named(name: &str) -> Option<AskedKind> {
    match name {
        "VOID" => Some(AskedKind::Result(1)),
        "ROWS" => Some(AskedKind::Result(2)),
        "SET_KEYSPACE" => Some(AskedKind::Result(3)),
        "PREPARED" => Some(AskedKind::Result(4)),
        "SCHEMA_CHANGE" => Some(AskedKind::Result(5)),
        _ => None,
    }
}

fn response_named(name: &str) -> Option<AskedKind> {
    match name {
        "RESULT" => Some(AskedKind::Response(Opcode::Result)),
        "ERROR" => Some(AskedKind::Response(Opcode::Error)),
        "READY" => Some(AskedKind::Response(Opcode::Ready)),
        "AUTHENTICATE" => Some(AskedKind::Response(Opcode::Authenticate)),
        "SUPPORTED" => Some(AskedKind::Response(Opcode::Supported)),
        "EVENT" => Some(AskedKind::Response(Opcode::Event)),
        "AUTH_CHALLENGE" => Some(AskedKind::Response(Opcode::AuthChallenge)),
        "AUTH_SUCCESS" => Some(AskedKind::Response(Opcode::AuthSuccess)),
        _ => None,
    }
}

fn error_named(name: &str) -> Option<AskedKind> {
    match name {
        "ServerError" => Some(AskedKind::Error(0x0000)),
        "ProtocolError" => Some(AskedKind::Error(0x000A)),
        "AuthenticationError" => Some(AskedKind::Error(0x0100)),
        "Unavailable" => Some(AskedKind::Error(0x1000)),
        "Overloaded" => Some(AskedKind::Error(0x1001)),
        "IsBootstrapping" => Some(AskedKind::Error(0x1002)),
        "TruncateError" => Some(AskedKind::Error(0x1003)),
        "WriteTimeout" => Some(AskedKind::Error(0x1100)),
        "ReadTimeout" => Some(AskedKind::Error(0x1200)),
        "ReadFailure" => Some(AskedKind::Error(0x1300)),
        "FunctionFailure" => Some(AskedKind::Error(0x1400)),
        "WriteFailure" => Some(AskedKind::Error(0x1500)),
        "SyntaxError" => Some(AskedKind::Error(0x2000)),
        "Unauthorized" => Some(AskedKind::Error(0x2100)),
        "Invalid" => Some(AskedKind::Error(0x2200)),
        "ConfigError" => Some(AskedKind::Error(0x2300)),
        "AlreadyExists" => Some(AskedKind::Error(0x2400)),
        "Unprepared" => Some(AskedKind::Error(0x2500)),
        _ => None,
    }
}
