// Written by dist/erase from crates/cqlp_tool/src/capture_files.rt.
//! The files of a capture, read one after the other.

use crate::cqlp_tool::path_lines::PathLines;
use crate::cqlp_capture_streams::CaptureInput;
use crate::cqlp_note::{IoFault, OfStd, Source};
use crate::kit_host::fs::File;
use crate::kit_host::rt::Files;

/// The files of a capture, of which one is open. Those that were captured after it are opened as their turn comes.
pub(crate) struct CaptureFiles<'a, R: Files, S: Source> {
    rt: &'a R,
    input: OfStd<R::File>,
    more: MorePaths<'a, S>,
    /// Whether one could not be opened.
    is_missing: bool,
}

/// The paths of the files behind the first.
pub(crate) enum MorePaths<'a, S: Source> {
    /// Those of these that are left, in order.
    Named(&'a [&'a str]),
    /// A line of a source names each.
    Listed(PathLines<'a, S>),
}

impl<'a, R: Files, S: Source> CaptureFiles<'a, R, S> {
    /// The first file, and the paths of the others.
    pub fn new(rt: &'a R, first: R::File, more: MorePaths<'a, S>) -> Self {
        CaptureFiles {
            rt,
            input: OfStd::new(first),
            more,
            is_missing: false,
        }
    }

    /// The path of a file that could not be opened, where a line named it.
    pub fn missing(&self) -> Option<&str> {
        match &self.more {
            MorePaths::Listed(lines) if self.is_missing => Some(lines.path()),
            MorePaths::Listed(_) | MorePaths::Named(_) => None,
        }
    }

    /// Opens the next file; `None` where there is no other.
    fn open_next(&mut self) -> Result<Option<R::File>, IoFault> {
        match &mut self.more {
            MorePaths::Listed(lines) => {
                if !lines.advance()? {
                    return Ok(None);
                }
                open(self.rt, lines.path())
            }
            MorePaths::Named(paths) => {
                let [path, left @ ..] = *paths else {
                    return Ok(None);
                };
                *paths = left;
                open(self.rt, path)
            }
        }
    }
}

/// Opens a file of a capture.
fn open<R: Files>(rt: &R, path: &str) -> Result<Option<R::File>, IoFault> {
    match File::open(rt, path) {
        Ok(file) => Ok(Some(file)),
        Err(_) => Err(IoFault),
    }
}

impl<R: Files, S: Source> Source for CaptureFiles<'_, R, S> {
    fn read(&mut self, buffer: &mut [u8]) -> Result<usize, IoFault> {
        self.input.read(buffer)
    }
}

impl<R: Files, S: Source> CaptureInput for CaptureFiles<'_, R, S> {
    fn next_file(&mut self) -> Result<bool, IoFault> {
        match self.open_next() {
            Ok(Some(file)) => {
                self.input.inner = file;
                Ok(true)
            }
            Ok(None) => Ok(false),
            Err(IoFault) => {
                self.is_missing = true;
                Err(IoFault)
            }
        }
    }
}
