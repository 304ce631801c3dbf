// Written by dist/erase from crates/cqlp_tool/src/followed_capture.rt.
//! A capture that is followed: a file that grows, or the files of a folder, the last of which grows.

use crate::cqlp_tool::capture_folder::CaptureFolder;
use crate::cqlp_tool::folder::is_folder;
use crate::cqlp_tool::pause::is_over_after_pause;
use crate::cqlp_capture_streams::CaptureInput;
use crate::cqlp_note::{IoFault, OfStd, Source};
use crate::kit_host::fs::File;
use std::io::{self, Read};
use crate::kit_host::rt::Files;

/// How many pauses are made at most where nothing comes: of a quarter of a second, for some thirty years.
const MOST_PAUSES: u32 = u32::MAX;

/// A file that is read as it grows: to its end, once there is a file that was written after it, or nothing more is waited for.
struct GrowingFile<'a, R: Files> {
    file: R::File,
    /// The folder of it and of those that are written after it, if one is followed.
    folder: Option<CaptureFolder<'a, R>>,
    /// Whether nothing more is waited for.
    is_over: bool,
    /// Whether it grows no further.
    is_whole: bool,
}

impl<R: Files> GrowingFile<'_, R> {
    /// Whether the file ends here, where a read gave nothing: if it grew no further before that read.
    fn has_ended(&mut self) -> io::Result<bool> {
        if self.is_whole {
            return Ok(true);
        }
        let is_followed = match &mut self.folder {
            Some(folder) => folder.has_next()?,
            None => false,
        };
        self.is_whole = is_followed || self.is_over;
        if !self.is_whole {
            self.is_over = is_over_after_pause();
        }
        Ok(false)
    }

    /// Goes on to the next file of the folder; false where there is none.
    fn open_next(&mut self) -> io::Result<bool> {
        let Some(folder) = &mut self.folder else {
            return Ok(false);
        };
        let Some(file) = folder.open_next()? else {
            return Ok(false);
        };
        self.file = file;
        self.is_whole = false;
        Ok(true)
    }
}

impl<R: Files> Read for GrowingFile<'_, R> {
    fn read(&mut self, buf: &mut [u8]) -> io::Result<usize> {
        for _ in 0..MOST_PAUSES {
            let count = self.file.read(buf)?;
            if count > 0 || buf.is_empty() || self.has_ended()? {
                return Ok(count);
            }
        }
        Ok(0)
    }
}

/// The files of a capture, as they are written.
pub(crate) struct FollowedCapture<'a, R: Files> {
    input: OfStd<GrowingFile<'a, R>>,
    /// Whether a file could not be opened.
    is_missing: bool,
}

impl<'a, R: Files> FollowedCapture<'a, R> {
    /// Opens a file, or the first of a folder, once it is there; `None` where nothing more is waited for, and there is none.
    pub fn open(rt: &'a R, path: &'a str) -> io::Result<Option<Self>> {
        if !is_folder(rt, path) {
            let file = File::open(rt, path)?;
            return Ok(Some(Self::of(file, None)));
        }
        let mut folder = CaptureFolder::new(rt, path);
        let mut is_over = false;
        for _ in 0..MOST_PAUSES {
            if let Some(file) = folder.open_next()? {
                return Ok(Some(Self::of(file, Some(folder))));
            }
            if is_over {
                break;
            }
            is_over = is_over_after_pause();
        }
        Ok(None)
    }

    fn of(file: R::File, folder: Option<CaptureFolder<'a, R>>) -> Self {
        FollowedCapture {
            input: OfStd::new(GrowingFile {
                file,
                folder,
                is_over: false,
                is_whole: false,
            }),
            is_missing: false,
        }
    }

    /// The path of a file of the folder that could not be opened.
    pub fn missing(&self) -> Option<&str> {
        match &self.input.inner.folder {
            Some(folder) if self.is_missing => Some(folder.path()),
            Some(_) | None => None,
        }
    }
}

impl<R: Files> Source for FollowedCapture<'_, R> {
    fn read(&mut self, buffer: &mut [u8]) -> Result<usize, IoFault> {
        self.input.read(buffer)
    }
}

impl<R: Files> CaptureInput for FollowedCapture<'_, R> {
    fn next_file(&mut self) -> Result<bool, IoFault> {
        match self.input.inner.open_next() {
            Ok(is_open) => Ok(is_open),
            Err(_) => {
                self.is_missing = true;
                Err(IoFault)
            }
        }
    }
}
