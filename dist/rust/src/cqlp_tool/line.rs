// Written by dist/erase from crates/cqlp_tool/src/line.rt.
//! The line of a mark.

/// How many bytes a line has at most.
const ROOM: usize = 64;

/// A short text.
pub(crate) struct Line {
    bytes: [u8; ROOM],
    len: usize,
}

impl Line {
    fn new() -> Self {
        Line {
            bytes: [0; ROOM],
            len: 0,
        }
    }

    pub(crate) fn as_slice(&self) -> &[u8] {
        &self.bytes[..self.len]
    }

    /// Puts bytes behind the others.
    fn add(&mut self, bytes: &[u8]) {
        let end = self.len + bytes.len();
        self.bytes[self.len..end].copy_from_slice(bytes);
        self.len = end;
    }
}

const MEGABYTE: u64 = 1_000_000;

const MEGABYTES_PER_MARK: u64 = 64;

/// The line of a mark in a file of this length.
pub(crate) fn mark_line(length: u64, mark: u64) -> Line {
    let mut digits = crate::itoa::Buffer::new();
    let mut line = Line::new();
    line.add(b"cqlp: ");
    line.add(digits.format(MEGABYTES_PER_MARK * mark).as_bytes());
    line.add(b" of ");
    line.add(digits.format(length / MEGABYTE).as_bytes());
    line.add(b" MB\n");
    line
}
