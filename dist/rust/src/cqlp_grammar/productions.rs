// Written by dist/erase from crates/cqlp_grammar/src/productions.rt.
//! The productions: which fields come, and what follows from their values.

use crate::cqlp_grammar::grammar::{Group, Role};
use crate::cqlp_grammar::{error_code, result_kind};
use crate::cqlp_note::{Field, Notation, Opcode};

/// What is to be read next.
#[derive(Clone, Copy)]
pub enum Expected {
    Field(Want),
    /// The type option of a column.
    Option,
}

/// A field that is to be read.
#[derive(Clone, Copy)]
pub struct Want {
    pub field: Field,
    pub notation: Notation,
    pub role: Role,
}

/// A field from whose value nothing follows.
macro_rules! plain {
    ($field:ident, $notation:ident) => {
        Expected::Field(Want {
            field: Field::$field,
            notation: Notation::$notation,
            role: Role::Alone,
        })
    };
}

/// A field of this role.
macro_rules! with_role {
    ($field:ident, $notation:ident, $role:ident) => {
        Expected::Field(Want {
            field: Field::$field,
            notation: Notation::$notation,
            role: Role::$role,
        })
    };
}

/// A count of this many groups, a \[short\].
macro_rules! counted {
    ($field:ident, $group:expr) => {
        Expected::Field(Want {
            field: Field::$field,
            notation: Notation::Count16,
            role: Role::Counts($group),
        })
    };
}

/// The fields of a message. Section 4 of `native_protocol_v4.spec`.
pub fn body_fields(opcode: Opcode) -> &'static [Expected] {
    match opcode {
        Opcode::Ready | Opcode::Options => &[],
        Opcode::Startup => &[counted!(Options, Group::StringPairs)],
        Opcode::Supported => &[counted!(Options, Group::OptionLists)],
        Opcode::Query => &[
            plain!(Query, Text32),
            plain!(Consistency, Short),
            with_role!(QueryFlags, Byte, QueryFlags),
        ],
        Opcode::Prepare => &[plain!(Query, Text32)],
        Opcode::Execute => &[
            plain!(StatementId, Bytes16),
            plain!(Consistency, Short),
            with_role!(QueryFlags, Byte, QueryFlags),
        ],
        Opcode::Register => &[counted!(EventTypes, Group::EventTypes)],
        Opcode::Batch => &[
            plain!(BatchType, Byte),
            counted!(Entries, Group::BatchEntries),
            plain!(Consistency, Short),
            with_role!(BatchFlags, Byte, BatchFlags),
        ],
        Opcode::Authenticate => &[plain!(Class, Text16)],
        Opcode::AuthChallenge | Opcode::AuthResponse | Opcode::AuthSuccess => {
            &[plain!(Token, Bytes32)]
        }
        Opcode::Error => &[with_role!(ErrorCode, Int, ErrorCode)],
        Opcode::Result => &[with_role!(ResultKind, Int, ResultKind)],
        Opcode::Event => &[with_role!(EventType, Text16, EventType)],
    }
}

/// The fields of one group.
pub fn group_fields(group: Group) -> &'static [Expected] {
    match group {
        Group::Warnings => &[plain!(Warning, Text16)],
        Group::PayloadItems => &[plain!(PayloadKey, Text16), plain!(PayloadValue, Bytes32)],
        Group::StringPairs => &[plain!(OptionKey, Text16), plain!(OptionValue, Text16)],
        Group::OptionLists => &[
            plain!(OptionKey, Text16),
            counted!(OptionValues, Group::OptionValues),
        ],
        Group::OptionValues => &[plain!(OptionValue, Text16)],
        Group::EventTypes => &[plain!(EventType, Text16)],
        Group::QueryValues { named: true } => &[plain!(ValueName, Text16), plain!(Value, Bound)],
        Group::QueryValues { named: false } => &[plain!(Value, Bound)],
        Group::BatchValues => &[plain!(Value, Bound)],
        Group::BatchEntries => &[with_role!(EntryKind, Byte, EntryKind)],
        Group::Arguments => &[plain!(Argument, Text16)],
        Group::KeyIndexes => &[plain!(KeyIndex, Short)],
        Group::Columns { one_table: true } => &[plain!(ColumnName, Text16), Expected::Option],
        Group::Columns { one_table: false } => &[
            plain!(Keyspace, Text16),
            plain!(Table, Text16),
            plain!(ColumnName, Text16),
            Expected::Option,
        ],
    }
}

/// The fields after an error's message. Section 9.
pub fn error_fields(code: u32) -> &'static [Expected] {
    match code {
        error_code::UNAVAILABLE => &[
            plain!(Consistency, Short),
            plain!(Required, Int),
            plain!(Alive, Int),
        ],
        error_code::WRITE_TIMEOUT => &[
            plain!(Consistency, Short),
            plain!(Received, Int),
            plain!(BlockFor, Int),
            plain!(WriteType, Text16),
        ],
        error_code::READ_TIMEOUT => &[
            plain!(Consistency, Short),
            plain!(Received, Int),
            plain!(BlockFor, Int),
            plain!(DataPresent, Byte),
        ],
        error_code::READ_FAILURE => &[
            plain!(Consistency, Short),
            plain!(Received, Int),
            plain!(BlockFor, Int),
            plain!(Failures, Int),
            plain!(DataPresent, Byte),
        ],
        error_code::FUNCTION_FAILURE => &[
            plain!(Keyspace, Text16),
            plain!(Name, Text16),
            counted!(Arguments, Group::Arguments),
        ],
        error_code::WRITE_FAILURE => &[
            plain!(Consistency, Short),
            plain!(Received, Int),
            plain!(BlockFor, Int),
            plain!(Failures, Int),
            plain!(WriteType, Text16),
        ],
        error_code::ALREADY_EXISTS => &[plain!(Keyspace, Text16), plain!(Table, Text16)],
        error_code::UNPREPARED => &[plain!(StatementId, Bytes16)],
        _ => &[],
    }
}

/// The fields of a result of this kind. Section 4.2.5.
pub fn result_fields(kind: u32) -> &'static [Expected] {
    match kind {
        result_kind::ROWS => &[Expected::Field(Want {
            field: Field::MetaFlags,
            notation: Notation::Int,
            role: Role::MetaFlags { rows: true },
        })],
        result_kind::SET_KEYSPACE => &[plain!(Keyspace, Text16)],
        result_kind::PREPARED => &[
            plain!(StatementId, Bytes16),
            with_role!(MetaFlags, Int, PreparedFlags),
        ],
        result_kind::SCHEMA_CHANGE => &[
            plain!(Change, Text16),
            with_role!(Target, Text16, ChangeTarget),
        ],
        _ => &[],
    }
}

/// The names of a changed target. Section 4.2.5.5.
pub fn target_fields(target: &str) -> &'static [Expected] {
    if target == "KEYSPACE" {
        &[plain!(Keyspace, Text16)]
    } else if target == "TABLE" || target == "TYPE" {
        &[plain!(Keyspace, Text16), plain!(Name, Text16)]
    } else if target == "FUNCTION" || target == "AGGREGATE" {
        &[
            plain!(Keyspace, Text16),
            plain!(Name, Text16),
            counted!(Arguments, Group::Arguments),
        ]
    } else {
        &[]
    }
}

/// The fields of an event of this type. Section 4.2.6.
pub fn event_fields(event_type: &str) -> &'static [Expected] {
    if event_type == "TOPOLOGY_CHANGE" || event_type == "STATUS_CHANGE" {
        &[plain!(Change, Text16), plain!(Address, Inet)]
    } else if event_type == "SCHEMA_CHANGE" {
        &[
            plain!(Change, Text16),
            with_role!(Target, Text16, ChangeTarget),
        ]
    } else {
        &[]
    }
}

pub(crate) use counted;
pub(crate) use plain;
