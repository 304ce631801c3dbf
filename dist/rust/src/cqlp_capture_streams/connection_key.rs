// Written by dist/erase from crates/cqlp_capture_streams/src/connection_key.rt.
//! An order of connections in which the newest comes first.

/// The key of a connection in a map that is in order: the greater its number, the less its key. Most segments are of the newest connections, and a map finds
/// its first keys soonest.
#[inline(always)]
pub fn newest_first(number: u64) -> u64 {
    u64::MAX - number
}
