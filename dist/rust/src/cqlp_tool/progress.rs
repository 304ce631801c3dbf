// Written by dist/erase from crates/cqlp_tool/src/progress.rt.
//! A reader that reports how far it came.

use crate::cqlp_tool::marks::{marks, put_marks};
use crate::cqlp_capture_streams::CaptureInput;
use crate::cqlp_note::{IoFault, Source, Target};

/// A reader of a file of a known length, which gives what the reader gives, and writes to `notes` how much of the file was read: a line after each
/// further [`MARK`](crate::cqlp_tool::marks::MARK) bytes, as far as the length goes.
///
/// Once a line cannot be written no other one is, and the reading goes on.
pub struct Progress<S, T> {
    /// The reader.
    source: S,
    notes: T,
    /// How many bytes the file has.
    length: u64,
    /// How many of them were read.
    read: u64,
    /// Whether a line could not be written.
    is_over: bool,
}

impl<S, T> Progress<S, T> {
    /// Of a file of so many bytes, of which none is read.
    pub fn new(source: S, length: u64, notes: T) -> Self {
        Progress {
            source,
            notes,
            length,
            read: 0,
            is_over: false,
        }
    }
}

impl<S, T: Target> Progress<S, T> {
    /// So many bytes more were read.
    fn add_read(&mut self, count: usize) {
        let shown = marks(self.length, self.read);
        self.read = self.read.saturating_add(count as u64);
        let due = marks(self.length, self.read);
        if !self.is_over {
            self.is_over = put_marks(&mut self.notes, self.length, shown, due);
        }
    }
}

impl<S: Source, T: Target> Source for Progress<S, T> {
    fn read(&mut self, buffer: &mut [u8]) -> Result<usize, IoFault> {
        match self.source.read(buffer) {
            Ok(count) => {
                self.add_read(count);
                Ok(count)
            }
            Err(IoFault) => Err(IoFault),
        }
    }
}

impl<S: CaptureInput, T: Target> CaptureInput for Progress<S, T> {
    fn next_file(&mut self) -> Result<bool, IoFault> {
        self.source.next_file()
    }
}
