// Written by dist/erase from crates/cqlp_tool/src/path_lines.rt.
//! Paths that a source names, a line each.

use crate::cqlp_note::{IoFault, Source};

/// How many bytes a path has at most, with the end of its line.
const ROOM: usize = 4_096;

/// How many reads are made for a path at most.
const MOST_READS: u32 = u32::MAX;

/// Reads paths, a line each. An empty line names none.
pub(crate) struct PathLines<'a, S: Source> {
    source: &'a mut S,
    room: [u8; ROOM],
    /// Where the path that was read last begins and ends.
    start: usize,
    end: usize,
    /// Where the bytes behind its line begin, and where they end.
    next: usize,
    len: usize,
}

impl<'a, S: Source> PathLines<'a, S> {
    /// No line was read.
    pub fn new(source: &'a mut S) -> Self {
        PathLines {
            source,
            room: [0; ROOM],
            start: 0,
            end: 0,
            next: 0,
            len: 0,
        }
    }

    /// The path that was read last; nothing where it is no text.
    pub fn path(&self) -> &str {
        let bytes = self.room.get(self.start..self.end).unwrap_or(&[]);
        core::str::from_utf8(bytes).unwrap_or("")
    }

    /// Waits for the next path. False at the end of the source.
    ///
    /// # Errors
    ///
    /// A read that failed; a path that is no text, or longer than 4,095 bytes.
    pub fn advance(&mut self) -> Result<bool, IoFault> {
        for _ in 0..MOST_READS {
            if self.take_line() {
                if self.start < self.end {
                    return self.checked();
                }
                continue;
            }
            self.make_room();
            if self.read_more()? == 0 {
                self.take_rest();
                return if self.start < self.end {
                    self.checked()
                } else {
                    Ok(false)
                };
            }
        }
        Err(IoFault)
    }

    /// Whether the path that was read last is a text.
    fn checked(&self) -> Result<bool, IoFault> {
        if self.path().is_empty() {
            Err(IoFault)
        } else {
            Ok(true)
        }
    }

    /// Takes the line that begins behind the last one, if it is there to its end.
    fn take_line(&mut self) -> bool {
        let waiting = self.room.get(self.next..self.len).unwrap_or(&[]);
        let Some(length) = waiting.iter().position(|byte| *byte == b'\n') else {
            return false;
        };
        self.start = self.next;
        self.end = self.next.saturating_add(length);
        self.next = self.end.saturating_add(1);
        true
    }

    /// Takes what is behind the last line, which no line end follows.
    fn take_rest(&mut self) {
        self.start = self.next;
        self.end = self.len;
        self.next = self.len;
    }

    /// Moves the bytes behind the last line to the front.
    fn make_room(&mut self) {
        if self.next <= self.len && self.len <= ROOM {
            self.room.copy_within(self.next..self.len, 0);
            self.len -= self.next;
        } else {
            self.len = 0;
        }
        self.start = 0;
        self.end = 0;
        self.next = 0;
    }

    /// Reads behind the bytes that are there, and answers how many came.
    fn read_more(&mut self) -> Result<usize, IoFault> {
        let Some(room) = self.room.get_mut(self.len..) else {
            return Err(IoFault);
        };
        if room.is_empty() {
            return Err(IoFault);
        }
        let count = self.source.read(room)?;
        self.len = self.len.saturating_add(count);
        Ok(count)
    }
}
