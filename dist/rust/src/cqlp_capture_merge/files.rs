// Written by dist/erase from crates/cqlp_capture_merge/src/files.rt.
//! The names of files, and places in them.

/// The paths of the files that are read, in order; `-` is standard input.
#[derive(Clone, Copy)]
pub struct FileNames<'a> {
    pub first: &'a str,
    pub more: &'a [&'a str],
}

impl<'a> FileNames<'a> {
    /// The path of the file with a number, counted from 0.
    pub(crate) fn name(&self, file: usize) -> &'a str {
        if file == 0 {
            return self.first;
        }
        match self.more.get(file - 1) {
            Some(name) => *name,
            None => self.first,
        }
    }
}

/// A line of one of several files.
#[derive(Clone, Copy)]
pub(crate) struct Place {
    /// The number of the file, counted from 0.
    pub file: usize,
    /// The number of the line, counted from 1.
    pub line: u64,
}
