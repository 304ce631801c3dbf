// Written by dist/erase from crates/cqlp_statement_file/src/undoubled.rt.
//! Backslashes that are written twice.

use crate::kit_host::prelude::{KitVec, Vec};
use crate::kit_std::alloc::AllocError;

/// Writes a line into a buffer with each pair of backslashes as one, if it has some and all are in pairs, as cqlsh writes those of a text. Answers whether it
/// has.
pub(crate) fn write_undoubled(line: &[u8], plain: &mut Vec<u8>) -> Result<bool, AllocError> {
    plain.clear();
    let mut is_open = false;
    let mut has_some = false;
    for byte in line {
        let is_backslash = *byte == b'\\';
        if is_open && !is_backslash {
            return Ok(false);
        }
        is_open = is_backslash && !is_open;
        has_some = has_some || is_backslash;
        if !is_open {
            plain.kit_push(*byte)?;
        }
    }
    Ok(has_some && !is_open)
}
