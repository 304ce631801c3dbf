// Written by dist/erase from crates/cqlp_grammar/src/error_code.rt.
//! The codes of errors after whose message more fields come. Section 9 of `native_protocol_v4.spec`.

/// Too few replicas are alive: Unavailable_exception.
pub const UNAVAILABLE: u32 = 0x1000;
/// Too few replicas took a write in time: Write_timeout.
pub const WRITE_TIMEOUT: u32 = 0x1100;
/// Too few replicas answered a read in time: Read_timeout.
pub const READ_TIMEOUT: u32 = 0x1200;
/// Replicas failed in a read: Read_failure.
pub const READ_FAILURE: u32 = 0x1300;
/// A user-defined function failed: Function_failure.
pub const FUNCTION_FAILURE: u32 = 0x1400;
/// Replicas failed in a write: Write_failure.
pub const WRITE_FAILURE: u32 = 0x1500;
/// The keyspace or table is there already: Already_exists.
pub const ALREADY_EXISTS: u32 = 0x2400;
/// The prepared statement is not known: Unprepared.
pub const UNPREPARED: u32 = 0x2500;
