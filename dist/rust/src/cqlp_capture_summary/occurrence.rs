// Written by dist/erase from crates/cqlp_capture_summary/src/occurrence.rt.
//! One time that a statement was asked for.

/// One time that a statement was asked for.
#[derive(Clone, Copy)]
pub struct Occurrence<'a> {
    /// What the statement is called, as its text. At most the first 256 bytes are kept.
    pub name: &'a [u8],
    /// Whether `name` is all of the statement's name.
    pub is_whole_name: bool,
    /// Whether it was answered by an ERROR.
    pub is_error: bool,
    /// Rows of its answer.
    pub rows: u64,
    /// Bytes of the frames of the request and its answer.
    pub bytes: u64,
    /// Nanoseconds from the request's first byte to the answer's last, where both are known.
    pub took: Option<u64>,
}
