// Written by dist/erase from crates/cqlp_tool/src/marks.rt.
//! Which lines say how much of a file was read.

use crate::cqlp_tool::line::mark_line;
use crate::cqlp_note::{Target, offer};

/// After how many bytes more there is a line: 64 MB.
pub const MARK: u64 = 64_000_000;

/// How many marks lie within so many bytes of a file of this length.
pub(crate) fn marks(length: u64, read: u64) -> u64 {
    read.min(length) / MARK
}

/// Writes the lines of the marks behind the first `shown`, up to the last of `due`. Answers whether the target failed.
pub(crate) fn put_marks<T: Target>(notes: &mut T, length: u64, shown: u64, due: u64) -> bool {
    for mark in shown..due {
        if put_mark(notes, length, mark + 1) {
            return true;
        }
    }
    false
}

/// Writes the line of a mark. Answers whether the target failed.
fn put_mark<T: Target>(notes: &mut T, length: u64, mark: u64) -> bool {
    let line = mark_line(length, mark);
    let bytes = line.as_slice();
    offer(notes, bytes) < bytes.len()
}
