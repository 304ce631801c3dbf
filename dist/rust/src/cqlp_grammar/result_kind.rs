// Written by dist/erase from crates/cqlp_grammar/src/result_kind.rt.
//! The kinds of results. Section 4.2.5 of `native_protocol_v4.spec`.

/// Nothing: Void.
pub const VOID: u32 = 1;
/// A page of rows: Rows.
pub const ROWS: u32 = 2;
/// The keyspace in use: Set_keyspace.
pub const SET_KEYSPACE: u32 = 3;
/// A statement is prepared: Prepared.
pub const PREPARED: u32 = 4;
/// The schema was changed: Schema_change.
pub const SCHEMA_CHANGE: u32 = 5;
