// Written by dist/erase from crates/cqlp_text/src/names.rt.
//! The names that are in lines.

use crate::cqlp_kind::Kind;
use crate::cqlp_note::{Field, Opcode, Reason};

/// The name of a field.
#[must_use]
pub fn field_name(field: Field) -> &'static str {
    match field {
        Field::TraceId => "TraceId",
        Field::Warnings => "Warnings",
        Field::Warning => "Warning",
        Field::PayloadItems => "PayloadItems",
        Field::PayloadKey => "PayloadKey",
        Field::PayloadValue => "PayloadValue",
        Field::Options => "Options",
        Field::OptionKey => "OptionKey",
        Field::OptionValue => "OptionValue",
        Field::OptionValues => "OptionValues",
        Field::Query => "Query",
        Field::StatementId => "StatementId",
        Field::EventTypes => "EventTypes",
        Field::EventType => "EventType",
        Field::Token => "Token",
        Field::BatchType => "BatchType",
        Field::Entries => "Entries",
        Field::EntryKind => "EntryKind",
        Field::Consistency => "Consistency",
        Field::BatchFlags => "BatchFlags",
        Field::SerialConsistency => "SerialConsistency",
        Field::Timestamp => "Timestamp",
        Field::QueryFlags => "QueryFlags",
        Field::Values => "Values",
        Field::ValueName => "ValueName",
        Field::Value => "Value",
        Field::PageSize => "PageSize",
        Field::PagingState => "PagingState",
        Field::Class => "Class",
        Field::ErrorCode => "ErrorCode",
        Field::Message => "Message",
        Field::Required => "Required",
        Field::Alive => "Alive",
        Field::Received => "Received",
        Field::BlockFor => "BlockFor",
        Field::WriteType => "WriteType",
        Field::DataPresent => "DataPresent",
        Field::Failures => "Failures",
        Field::Keyspace => "Keyspace",
        Field::Name => "Name",
        Field::Arguments => "Arguments",
        Field::Argument => "Argument",
        Field::Table => "Table",
        Field::ResultKind => "ResultKind",
        Field::Rows => "Rows",
        Field::MetaFlags => "MetaFlags",
        Field::Columns => "Columns",
        Field::Keys => "Keys",
        Field::KeyIndex => "KeyIndex",
        Field::ColumnName => "ColumnName",
        Field::Change => "Change",
        Field::Target => "Target",
        Field::Address => "Address",
        Field::TypeName => "TypeName",
        Field::Fields => "Fields",
        Field::FieldName => "FieldName",
    }
}

/// The name of an opcode, as section 2.4 of `native_protocol_v4.spec` has it.
#[must_use]
pub fn opcode_name(opcode: Opcode) -> &'static str {
    match opcode {
        Opcode::Error => "ERROR",
        Opcode::Startup => "STARTUP",
        Opcode::Ready => "READY",
        Opcode::Authenticate => "AUTHENTICATE",
        Opcode::Options => "OPTIONS",
        Opcode::Supported => "SUPPORTED",
        Opcode::Query => "QUERY",
        Opcode::Result => "RESULT",
        Opcode::Prepare => "PREPARE",
        Opcode::Execute => "EXECUTE",
        Opcode::Register => "REGISTER",
        Opcode::Event => "EVENT",
        Opcode::Batch => "BATCH",
        Opcode::AuthChallenge => "AUTH_CHALLENGE",
        Opcode::AuthResponse => "AUTH_RESPONSE",
        Opcode::AuthSuccess => "AUTH_SUCCESS",
    }
}

/// The name of a kind of type, as CQL has it.
#[must_use]
pub fn kind_name(kind: Kind) -> &'static str {
    match kind {
        Kind::Custom => "custom",
        Kind::Ascii => "ascii",
        Kind::Bigint => "bigint",
        Kind::Blob => "blob",
        Kind::Boolean => "boolean",
        Kind::Counter => "counter",
        Kind::Decimal => "decimal",
        Kind::Double => "double",
        Kind::Float => "float",
        Kind::Int => "int",
        Kind::Timestamp => "timestamp",
        Kind::Uuid => "uuid",
        Kind::Varchar => "varchar",
        Kind::Varint => "varint",
        Kind::Timeuuid => "timeuuid",
        Kind::Inet => "inet",
        Kind::Date => "date",
        Kind::Time => "time",
        Kind::Smallint => "smallint",
        Kind::Tinyint => "tinyint",
        Kind::List => "list",
        Kind::Map => "map",
        Kind::Set => "set",
        Kind::Udt => "udt",
        Kind::Tuple => "tuple",
        Kind::Raw => "raw",
    }
}

/// The name of a reason.
#[must_use]
pub fn reason_name(reason: Reason) -> &'static str {
    match reason {
        Reason::BadVersion => "BadVersion",
        Reason::Compressed => "Compressed",
        Reason::BadOpcode => "BadOpcode",
        Reason::BadDirection => "BadDirection",
        Reason::BadLength => "BadLength",
        Reason::Overrun => "Overrun",
        Reason::TooLong => "TooLong",
        Reason::BadUtf8 => "BadUtf8",
        Reason::BadValueLength => "BadValueLength",
        Reason::BadInet => "BadInet",
        Reason::BadCount => "BadCount",
        Reason::BadType => "BadType",
        Reason::TooDeep => "TooDeep",
        Reason::TooMany => "TooMany",
        Reason::BadBatchKind => "BadBatchKind",
        Reason::BadBatchFlags => "BadBatchFlags",
        Reason::BadSize => "BadSize",
        Reason::BadScalar => "BadScalar",
        Reason::ExtraInValue => "ExtraInValue",
        Reason::StreamTooLong => "StreamTooLong",
    }
}
