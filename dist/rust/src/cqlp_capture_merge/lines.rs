// Written by dist/erase from crates/cqlp_capture_merge/src/lines.rt.
//! The lines of a file, one after the other.

use crate::kit_host::prelude::{Vec, vec};
use crate::cqlp_note::{IoFault, Source};
use crate::kit_std::alloc::{AllocError};

/// How many bytes a line has at most, with its end.
pub(crate) const LONGEST: usize = 1 << 20;

/// The lines of a file. All memory is taken in `new`.
pub(crate) struct Lines {
    room: Vec<u8>,
    /// Where the line begins, and how far it goes as far as is known.
    begin: usize,
    end: usize,
    /// Where the next one begins.
    next: usize,
    /// How much of the room was read into.
    filled: usize,
}

/// What comes in a file.
#[derive(Clone, Copy)]
pub(crate) enum Step {
    /// A line.
    Line,
    /// A line that is too long.
    TooLong,
    /// The end.
    End,
}

impl Lines {
    pub(crate) fn new() -> Result<Self, AllocError> {
        Ok(Lines {
            room: vec![0; LONGEST]?,
            begin: 0,
            end: 0,
            next: 0,
            filled: 0,
        })
    }

    /// Begins another file.
    pub(crate) fn clear(&mut self) {
        self.begin = 0;
        self.end = 0;
        self.next = 0;
        self.filled = 0;
    }

    /// The line that `advance` came to.
    pub(crate) fn line(&self) -> &[u8] {
        &self.room[self.begin..self.end]
    }

    /// Goes on to the next line, which is without its end.
    pub(crate) fn advance<I: Source>(&mut self, input: &mut I) -> Result<Step, IoFault> {
        self.begin = self.next;
        self.end = self.next;
        for _ in 0..u64::MAX {
            if let Some(step) = self.go_on(input)? {
                return Ok(step);
            }
        }
        Err(IoFault)
    }

    /// Looks for the end of the line in what was read, and if it is not there reads once more.
    fn go_on<I: Source>(&mut self, input: &mut I) -> Result<Option<Step>, IoFault> {
        if let Some(length) = line_end(&self.room[self.end..self.filled]) {
            self.end += length;
            self.next = self.end + 1;
            return Ok(Some(Step::Line));
        }
        self.end = self.filled;
        if self.filled == self.room.len() {
            if self.begin == 0 {
                return Ok(Some(Step::TooLong));
            }
            self.move_to_front();
        }
        self.read(input)
    }

    /// Has the line be in front of the room.
    fn move_to_front(&mut self) {
        let length = self.filled - self.begin;
        self.room.copy_within(self.begin..self.filled, 0);
        self.begin = 0;
        self.end = length;
        self.next = 0;
        self.filled = length;
    }

    /// Reads once. Where nothing comes, the line is the last one.
    fn read<I: Source>(&mut self, input: &mut I) -> Result<Option<Step>, IoFault> {
        let count = input.read(&mut self.room[self.filled..])?;
        if count == 0 {
            self.next = self.end;
            return Ok(Some(self.last_step()));
        }
        self.filled += count;
        Ok(None)
    }

    /// The last line, which has no end, or the end.
    fn last_step(&self) -> Step {
        if self.begin == self.end {
            Step::End
        } else {
            Step::Line
        }
    }
}

/// How many bytes come before the end of a line, if that is there.
fn line_end(bytes: &[u8]) -> Option<usize> {
    bytes.iter().position(|byte| *byte == b'\n')
}
